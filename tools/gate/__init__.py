"""The gate, its tests, and what its steps cost."""
