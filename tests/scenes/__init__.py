"""Further scenes of edges.py."""
