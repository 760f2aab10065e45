"""What tools/docs/command_pages consists of."""
