"""Pages on which a run, a session or all ways are watched."""
