"""Local circumstances beside the Swiss Ephemeris: which eclipses and occultations, at which places, and how both are
put beside one another. The library reads the same coefficients, by a binary file that `asc2eph` makes of JPL's text."""

import json
import shutil
import subprocess
from dataclasses import dataclass
from pathlib import Path

import numpy as np

import finder

DAY, J2000_DATE = 86_400.0, 2_451_545.0
# Its radii in km, by which its contacts come out: of the Sun, of the Moon, which it takes 0.99916 times for inner
# contacts, and of the Earth.
SUN, MOON, EARTH = 696_000.0, 1_738.15, 6_378.14
INNER_MOON = 0.99916 * MOON
PLACES = {
    "Greenwich": (51.4769, 0.0, 46.0),
    "New York": (40.71, -74.01, 10.0),
    "Norfolk": (36.85, -76.29, 2.0),
    "Washington": (38.90, -77.04, 20.0),
    "Los Angeles": (34.05, -118.24, 90.0),
    "Honolulu": (21.31, -157.86, 6.0),
    "Reykjavik": (64.15, -21.94, 30.0),
    "Istanbul": (41.01, 28.98, 40.0),
    "Agadez": (16.97, 7.99, 505.0),
    "Loiyangalani": (2.76, 36.72, 380.0),
    "Delhi": (28.61, 77.21, 216.0),
    "Tokyo": (35.68, 139.69, 40.0),
    "Cape Town": (-33.92, 18.42, 20.0),
    "Buenos Aires": (-34.60, -58.38, 25.0),
    "Denver": (39.74, -104.99, 1600.0),
}


def degrees(hours, sign, arc):
    """Right ascension and declination in degrees, of hours and degrees with their minutes and seconds."""
    return tuple(scale * (each[0] + each[1] / 60 + each[2] / 3600) for scale, each in ((15, hours), (sign, arc)))


# The stars as sefstars.txt of the library has them: degrees of the ICRS at J2000, proper motions in mas a year,
# parallax in mas, and km/s.
STARS = {
    "Aldebaran": finder.Star(*degrees((4, 35, 55.23907), 1, (16, 30, 33.4885)), 63.45, -188.94, 48.94, 54.26),
    "Regulus": finder.Star(*degrees((10, 8, 22.31099), 1, (11, 58, 1.9516)), -248.73, 5.59, 41.13, 5.9),
    "Spica": finder.Star(*degrees((13, 25, 11.57937), -1, (11, 9, 40.7501)), -42.35, -30.67, 13.06, 1.0),
}


@dataclass(frozen=True)
class Case:
    """An eclipse (`solar`, `lunar`) or an occultation of a body on a day, at a place, with one delta T in seconds."""

    kind: str
    day: str
    place: str
    delta_t: float
    body: str = ""

    @property
    def name(self):
        """Its name, by which answers are kept."""
        return " ".join(filter(None, (self.kind, self.body, self.day, self.place)))

    @property
    def request(self):
        """The line that asks the C peer for it, from noon of the day before on."""
        latitude, longitude, metres = PLACES[self.place]
        start = J2000_DATE + (np.datetime64(self.day) - np.datetime64("2000-01-01")).astype(float) - 1
        return f"{self.kind} {start} {longitude} {latitude} {metres} {self.body}".rstrip()


def _both(kind, day, places, delta_t, body=""):
    return [Case(kind, day, place, delta_t, body) for place in places]


CASES = [
    *_both("solar", "1970-03-07", ("Norfolk", "New York"), 40.2),
    *_both("solar", "1973-06-30", ("Agadez", "Loiyangalani"), 43.8),
    *_both("solar", "2000-12-25", ("Washington", "Denver"), 64.1),
    *_both("lunar", "2000-01-21", ("Greenwich", "Istanbul"), 63.83),
    *_both("occult", "2000-07-29", ("Greenwich", "Reykjavik"), 63.98, "mercury"),
    *_both("occult", "2000-07-30", ("Cape Town", "Buenos Aires"), 63.98, "mars"),
    *_both("occult", "1961-10-07", ("Greenwich", "Delhi"), 33.9, "venus"),
    *_both("occult", "1961-11-23", ("Greenwich", "New York"), 33.95, "Aldebaran"),
    *_both("occult", "1964-12-05", ("Los Angeles", "Honolulu"), 35.7, "mercury"),
    *_both("occult", "1968-08-25", ("Greenwich", "Reykjavik"), 38.6, "venus"),
    *_both("occult", "1968-10-19", ("New York", "Los Angeles"), 38.7, "jupiter"),
    *_both("occult", "1968-10-21", ("Greenwich", "Reykjavik"), 38.7, "Spica"),
    *_both("occult", "1970-02-21", ("Greenwich", "Reykjavik"), 40.2, "Regulus"),
    *_both("occult", "1973-12-11", ("Greenwich", "Delhi"), 44.4, "saturn"),
]
# The contacts by the places of the library's times, and the flags by which it says that each is seen.
SOLAR = {"C1": (1, 512), "C2": (2, 1024), "greatest": (0, 256), "C3": (3, 2048), "C4": (4, 4096)}
LUNAR = {
    "P1": (6, 8192), "U1": (2, 512), "U2": (4, 1024), "greatest": (0, 256), "U3": (5, 2048), "U4": (3, 4096),
    "P4": (7, 16384),
}  # fmt: skip
OCCULT = {
    "disappearance begins": (1, 512), "disappearance ends": (2, 1024), "reappearance begins": (3, 2048),
    "reappearance ends": (4, 4096), "disappears": (1, 512), "reappears": (4, 4096),
}  # fmt: skip
# The contacts for which the library takes the smaller Moon: inner ones, and those of a star.
INNER = ("C2", "C3", "disappearance ends", "reappearance begins", "disappears", "reappears")


@dataclass(frozen=True)
class Answer:
    """What the library returns: its flags, its times in seconds since J2000 (TT), NaN where it gives none, and its
    first three attributes."""

    flags: int
    times: tuple
    attributes: tuple


def peer(folder, sources):
    """Builds the C peer in a folder, and a binary file of JPL's text, of which the header is first."""
    top = Path(__file__).resolve().parents[2]
    subprocess.run(["cc", "-O2", "-o", folder / "swiss", top / "bench" / "swiss.c", "-lswe", "-lm"], check=True)
    text = "".join(Path(name).read_text("ascii") for name in sources)
    lines = text.splitlines(keepends=True)
    first = next(place for place, line in enumerate(lines) if len(line.split()) == 2 and line.split()[1] == "1018")
    (folder / "header.405").write_text("".join(lines[:first]), "ascii")
    (folder / "ascp2000.405").write_text("".join(lines[first:]), "ascii")
    words = ["/usr/lib/pluto/jpl-eph/asc2eph", ".", "-d405"]
    subprocess.run(words, cwd=folder, check=True, capture_output=True)
    shutil.copy("/usr/share/libswe/ephe/sefstars.txt", folder)
    return folder


def asked(folder, case):
    """The answer of the C peer to a case."""
    words = [folder / "swiss", folder, "jpleph.405", str(case.delta_t)]
    said = subprocess.run(words, input=case.request + "\n", capture_output=True, text=True, check=True).stdout.split()
    if said[0] == "error":
        raise ValueError(f"{case.name}: {' '.join(said)}")
    dates = [float(word) for word in said[1:9]]
    times = [None if date == 0 else round((date - J2000_DATE) * DAY + case.delta_t, 4) for date in dates]
    return Answer(int(said[0]), tuple(times), tuple(float(word) for word in said[9:]))


def found(source, case):
    """The contacts of the package: name, seconds since J2000, whether it is up, and half the width of its window."""
    start = np.datetime64(case.day, "s") - np.timedelta64(12, "h")
    stars = {case.body: STARS[case.body]} if case.body in STARS else None
    bodies = ["sun", "moon", *([case.body] if case.body and not stars else [])]
    words = {"delta_t": case.delta_t, "bodies": bodies, "stars": stars, "cache": False}
    sky = source.sky(PLACES[case.place], start, start + np.timedelta64(60, "h"), **words)
    if case.kind == "lunar":
        return _lunar(sky)
    made = {}
    for moon in (MOON, INNER_MOON):
        radii = {"sun": SUN, "moon": moon}
        if case.kind == "solar":
            contacts = [each.contacts for each in sky.eclipses(radii=radii) if each.sort.value == "solar eclipse"]
        else:
            contacts = [each.contacts for each in sky.occultations(case.body, radii=radii)]
        for moment in contacts[0]:
            if (moment.name in INNER) == (moon == INNER_MOON):
                made[moment.name] = moment
    return made


def _lunar(sky):
    """The contacts of the Moon's eclipse, of discs that make the shadows of the library: its umbra is the cone of the
    spheres 1.02 times 0.99405 times as wide, its penumbra 1.02 times 0.98813 times: by these its contacts come out."""
    (eclipse,) = [each for each in sky.eclipses() if each.sort.value == "lunar eclipse"]
    at = np.array([eclipse.greatest.seconds])
    centre = sky.centre()
    moon, sun = (centre.places(body, at)[:, 0] for body in ("moon", "sun"))
    part = float(-(moon @ sun) / (sun @ sun))
    umbra = 1.02 * 0.99405 * (EARTH - part * (SUN - EARTH))
    penumbra = 1.02 * 0.98813 * (EARTH + part * (SUN + EARTH))
    made = {}
    for radius, names in (
        ((umbra + part * SUN) / (1 + part), ("U1", "U2", "greatest", "U3", "U4")),
        ((penumbra - part * SUN) / (1 + part), ("P1", "P4")),
    ):
        radii = {"sun": SUN, "moon": MOON, "shadow": radius}
        (eclipse,) = [each for each in sky.eclipses(radii=radii) if each.sort.value == "lunar eclipse"]
        made.update({each.name: each for each in eclipse.contacts if each.name in names})
    return made


def compared(case, answer, ours):
    """Each contact that the library gives beside that of the package: its name, the difference in seconds, and whether
    both say that it is seen. What the library gives no time for, as it is below the horizon, has no difference."""
    table = {"solar": SOLAR, "lunar": LUNAR, "occult": OCCULT}[case.kind]
    rows = []
    for name, (place, flag) in table.items():
        theirs = answer.times[place]
        if name not in ours:
            is_star = case.body in STARS
            if theirs is not None and not (case.kind == "occult" and (name.split()[0][-1] == "s") != is_star):
                rows.append((name, None, False))
            continue
        moment = ours[name]
        off = None if theirs is None else moment.seconds - theirs
        is_seen = bool(answer.flags & flag)
        rows.append((name, off, is_seen == moment.is_up))
    return rows


def kept(path):
    """Answers that were kept, by the names of their cases."""
    whole = json.loads(Path(path).read_text("utf-8"))
    rows = whole["answers"].items()
    return {name: Answer(row["flags"], tuple(row["times"]), tuple(row["attributes"])) for name, row in rows}
