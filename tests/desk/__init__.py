"""The tests of the counter command, as a desk would use it; tests/counter runs them."""
