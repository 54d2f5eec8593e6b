"""The bodies of a sky: their radii, and what they are called."""

from __future__ import annotations

# Mean radii in km (docs/guide/recipes.md): of the planets by the IAU's working group of 2015, of the Sun by
# the IAU's resolution B3 of 2015.
RADII = {
    "sun": 695_700.0,
    "moon": 1_737.4,
    "mercury": 2_439.4,
    "venus": 6_051.8,
    "mars": 3_389.5,
    "jupiter": 69_911.0,
    "saturn": 58_232.0,
    "uranus": 25_362.0,
    "neptune": 24_622.0,
    "pluto": 1_188.3,
}
# The planets in order from the Sun, without the Earth; those within its orbit.
PLANETS = ("mercury", "venus", "mars", "jupiter", "saturn", "uranus", "neptune")
INNER = ("mercury", "venus")
# What is no body: the directions of a place.
DIRECTIONS = ("zenith", "nadir")


def title(body: str) -> str:
    """The name of a body at the start of a sentence.

    >>> title("sun"), title("jupiter"), title("alpha Leo")
    ('The Sun', 'Jupiter', 'Alpha Leo')
    """
    return f"The {body.capitalize()}" if body in ("sun", "moon") else body[:1].upper() + body[1:]


def short_title(body: str) -> str:
    """The name of a body on its own, as `Sun`.

    >>> short_title("sun"), short_title("regulus")
    ('Sun', 'Regulus')
    """
    return body[:1].upper() + body[1:]


def rise_name(body: str) -> str:
    """What the rising of a body is called: `sunrise`, `moonrise`, `Jupiter rises`."""
    return f"{body}rise" if body in ("sun", "moon") else f"{short_title(body)} rises"


def set_name(body: str) -> str:
    """What the setting of a body is called: `sunset`, `moonset`, `Jupiter sets`."""
    return f"{body}set" if body in ("sun", "moon") else f"{short_title(body)} sets"
