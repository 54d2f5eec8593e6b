"""A picture of your own, by matplotlib: how far the Moon is at its perigees and apogees, when seen from the Earth."""

import matplotlib.pyplot as plt

import finder

year = "examples/de405-2000.asc"
found = finder.apsides(year, "moon", observer="earth")
numbers = finder.values(found, year)
figure, axes = plt.subplots(figsize=(9, 4))
for name, mask in (("perigee", found.rises), ("apogee", found.falls)):
    axes.plot(found.datetime64()[mask], numbers.target.distance_km[mask], "o-", label=name)
axes.set(ylabel="km", title="Distance of the Moon at its apsides")
axes.legend(loc="center right")
