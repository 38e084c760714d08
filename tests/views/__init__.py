"""The rows of tests/rows as inputs of views."""
