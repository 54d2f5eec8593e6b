"""The great conjunction of 2000 to the second: the window, and the function around it."""

import finder
import finder.plot

year = "examples/de405-2000.asc"
found = finder.conjunctions(year, "jupiter", "saturn", observer="earth", frame="ecl")
axes = finder.plot.around(found, year)
axes.set_title("Jupiter and Saturn meet")
