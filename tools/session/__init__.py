"""A session in a terminal, and a short script of what one keeps."""
