"""Doubt: the new moons with fewer and fewer cuts. No new moon lies outside the bars."""

import finder
import finder.plot

year = "examples/de405-2000.asc"
span = {"observer": "earth", "frame": "ecl", "start": "2000-01-01", "end": "2000-04-01"}
rows = {f"depth {depth}": finder.conjunctions(year, "moon", "sun", depth=depth, **span) for depth in (40, 4, 2, 0)}
axes = finder.plot.timeline(rows, title="New moons, with less and less work")
