"""The sky of a place: where an observer stands, how the Earth turns, and the questions that are put to that sky."""
