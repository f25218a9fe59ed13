"""Whether a history is one plain table's, and histories of real file systems."""
