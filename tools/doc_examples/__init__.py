"""Compares the examples in doc comments with the functions that the tests run."""
