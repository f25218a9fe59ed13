"""Which servers votes may lose."""
