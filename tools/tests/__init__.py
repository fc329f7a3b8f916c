"""The tests of the built programs (test_*), and what only they use."""
