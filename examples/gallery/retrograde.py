"""Sets of times: when Mercury is retrograde, far from the Sun, and both at once."""

import finder
import finder.plot

year = "examples/de405-2000.asc"
back = finder.retrograde(year, "mercury", observer="earth", frame="ecl")
far = finder.far(year, "mercury", "sun", degrees=15, observer="earth")
rows = {
    "Mercury is retrograde": back,
    "more than 15° from the Sun": far,
    "both": back & far,
    "its stations": finder.stations(year, "mercury", observer="earth", frame="ecl"),
}
axes = finder.plot.timeline(rows, title="Mercury in 2000")
