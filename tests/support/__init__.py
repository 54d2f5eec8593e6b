"""What ./test is made of, and the trials of it."""
