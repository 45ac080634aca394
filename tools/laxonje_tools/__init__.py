"""What the tools share, and the parts of the larger ones."""
