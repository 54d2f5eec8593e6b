"""Searches by an astronomer's words: which words the command takes, numbers, times, and parts of a span."""
