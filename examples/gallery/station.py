"""A station over twenty days: Saturn's motion in longitude turns backward."""

import finder
import finder.plot

year = "examples/de405-2000.asc"
stations = finder.stations(year, "saturn", observer="earth", frame="ecl", dir="fall")
axes = finder.plot.around(stations, year, margin=10 * 86_400)
axes.set_title("Saturn's motion in longitude turns backward")
