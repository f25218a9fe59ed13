"""What a line that was printed means, and what stands behind it in its script."""
