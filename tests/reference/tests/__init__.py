"""Tests of the reference: against the documents' examples, against brute force, against stored cases and values."""
