"""The parts of tests/docs."""
