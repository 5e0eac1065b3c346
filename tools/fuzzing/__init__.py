"""What `tools/fuzz` is made of: texts that it makes up, runs and what is asked of them, and what is made to fail."""
