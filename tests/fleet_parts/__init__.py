"""The parts of tests/fleet."""
