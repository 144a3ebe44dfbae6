"""The parts of tests/python."""
