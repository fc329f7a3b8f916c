"""Parts of test_machines."""
