"""The parts of tools/clauses."""
