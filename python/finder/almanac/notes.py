"""What the forms of an almanac share: what is proved and what is computed, and the texts of windows."""

from __future__ import annotations

import hashlib
from collections.abc import Sequence
from pathlib import Path

from .. import spans
from ..seen.scales import Clock, Scale, last_leap_second
from .entries import Almanac, Contact, Entry, Group, Status

PROVED = (
    "Proved: each certified window holds exactly one event of its search in the text that is searched, and no event of "
    "the search in that text is outside of its windows. The text is of what is seen, for apsides of JPL's own numbers. "
    "Where one time stands, the window is that second of TDB, and with three decimals that millisecond."
)
COMPUTED = (
    "Measured, and not proved: how far the text is from what is seen (by light time, aberration, bending by the Sun's "
    "mass, and the equator or ecliptic of date). Computed in doubles, and not proved: the numbers beside the times, "
    "the kinds of eclipses, and each moment that has no window."
)
RULES = {
    Group.MOON: "New and full moons and quarters are of ecliptic longitude of date, nodes of the ecliptic of date.",
    Group.SEASONS: "Equinoxes and solstices are of the equinox of date, perihelion and aphelion of the Earth's centre.",
    Group.ECLIPSES: "Eclipses and transits are of spheres, in km: Sun 695700, Moon 1737.4, Earth 6378.1, and for its "
    "shadow 6442.4. A solar eclipse is central while the shadow's axis passes within 6350 km of the Earth's centre.",
    Group.PLANETS: "Oppositions, conjunctions with the Sun and stations are of ecliptic longitude of date. From "
    "Jupiter on, planets are the barycentres of their systems.",
    Group.MEETINGS: "Planets meet where they have one right ascension of date.",
    Group.MOON_MEETINGS: "The Moon passes a planet at one right ascension of date, and covers it where any place on "
    "Earth may see so.",
    Group.DAYS: "The Sun rises and sets with its centre 50' below the horizon, the Moon with its upper limb 34' below "
    "it, and twilights end with the Sun 6, 12 and 18 degrees below it. Altitudes are those of centres, without the "
    "air.",
    Group.WEEKS: "Planets rise and set with their centres 34' below the horizon. The text of a place has columns for "
    "the Sun, the Moon and the planets up to Uranus, so that Neptune and Pluto have no table here.",
}
POLAR_MOTION = "Polar motion, which moves a place by less than 20 m, is left out."
NO_PLUTO = "Pluto is not here: --pluto, or pluto=True, adds it."
# What the moments of an eclipse are.
MOMENTS = {
    "P1": "penumbra begins",
    "U1": "partial phase begins",
    "U2": "totality begins",
    "U3": "totality ends",
    "U4": "partial phase ends",
    "P4": "penumbra ends",
    "C1": "partial phase begins",
    "C2": "central phase begins",
    "C3": "central phase ends",
    "C4": "partial phase ends",
    "I": "ingress begins",
    "II": "ingress ends",
    "III": "egress begins",
    "IV": "egress ends",
}
UNDECIDED = "undecided: nothing is proved of this window, and the time is its middle"


def moment_text(contact: Contact) -> str:
    """What a moment of an event is, with its usual name."""
    meaning = MOMENTS.get(contact.name)
    return f"{contact.name} {meaning}" if meaning else contact.name


def contact_text(contact: Contact) -> str:
    """What a moment is, and at a place how high the body stands then."""
    said = moment_text(contact)
    if contact.altitude is None or contact.altitude != contact.altitude:
        return said
    where = f"{contact.altitude:.0f}° high" if contact.is_up else "below the horizon"
    return f"{said}, {where}"


def window_text(contact: Contact) -> str:
    """The times of a window on the calendar of TDB, one where it is a single second; nothing if there is none."""
    if contact.window is None:
        return ""
    first, last = (spans.time_text(ticks, contact.window.tick) for ticks in contact.window[:2])
    shown = last if first == last else f"{first}/{last}"
    return shown if contact.window.turn else f"{shown} undecided"


def warning(contacts: Sequence[Contact]) -> str:
    """What is said where a window is undecided; else nothing."""
    return UNDECIDED if any(contact.status is Status.UNDECIDED for contact in contacts) else ""


def said_of(entry: Entry) -> str:
    """The text of an entry, and what there is to warn of."""
    return "; ".join(filter(None, (entry.text, warning(entry.contacts))))


def notes(found: Almanac, clock: Clock) -> list[str]:
    """What is proved, what is computed, the rules of the groups, the scale of time, and what was searched."""
    made = [PROVED, COMPUTED, *(RULES[group] for group in found.groups)]
    if "pluto" not in found.bodies and Group.PLANETS in found.groups:
        made.append(NO_PLUTO)
    if found.local is not None:
        made += [found.local.rotation, POLAR_MOTION, *found.local.said]
    if clock.scale is Scale.UTC:
        made.append(
            f"UTC is by the leap seconds that erfa knows, the last before {last_leap_second()}; one that is announced "
            "later moves times after it by a second."
        )
    first, last = (spans.time_text(seconds) for seconds in (found.first_searched, found.last_searched))
    made.append(
        f"Windows were searched for from {first} to {last} (TDB), by {found.searches} searches at a tick of a second; "
        "the time inside each is that of a search at a tick of a millisecond, but of what is shown by day and by week."
    )
    return made


def sums_of(found: Almanac) -> list[tuple[str, str]]:
    """The files without their folders, and the SHA-256 of each."""
    return [(Path(name).name, hashlib.sha256(Path(name).read_bytes()).hexdigest()) for name in found.files]
