"""Publishes a catalogue of searches in a folder, and checks such a folder, whoever made it."""
