"""Parts of test_all."""
