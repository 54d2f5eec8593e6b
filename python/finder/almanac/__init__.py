"""Almanacs of years: their entries, and the forms in which they are written."""
