"""What tools/prove consists of."""
