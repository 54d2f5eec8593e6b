"""The Moon in the year 2000: phases, apsides and nodes."""

import finder
import finder.plot

year = "examples/de405-2000.asc"
seen = {"observer": "earth", "start": "2000-01-01", "end": "2001-01-01"}
rows = {
    "new moon": finder.conjunctions(year, "moon", "sun", frame="ecl", **seen),
    "full moon": finder.oppositions(year, "moon", frame="ecl", **seen),
    "perigee (up), apogee (down)": finder.apsides(year, "moon", **seen),
    "nodes": finder.coordinate(year, "moon", "z", frame="ecl", **seen),
}
axes = finder.plot.timeline(rows, title="The Moon in 2000")
