"""Random scripts of `play`, and their answers beside those of the plain table."""
