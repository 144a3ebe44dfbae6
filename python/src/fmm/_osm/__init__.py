"""Streets of OpenStreetMap files."""
