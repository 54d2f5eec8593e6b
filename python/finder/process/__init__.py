"""Runs the command `finder`: a process a search, what ends it, and what a refusal means."""
