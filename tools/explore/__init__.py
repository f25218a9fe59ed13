"""The ways in which jobs may end, and questions of them."""
