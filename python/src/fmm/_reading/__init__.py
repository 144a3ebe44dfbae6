"""Readers of positions: one module for each kind of source."""
