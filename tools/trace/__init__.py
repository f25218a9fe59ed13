"""Runs of `play` with all that happens in them: as text, as events, and as a picture."""
