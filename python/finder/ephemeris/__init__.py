"""JPL's files, and places of bodies of them in doubles."""
