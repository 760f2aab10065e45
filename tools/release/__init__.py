"""What tools/release/release consists of."""
