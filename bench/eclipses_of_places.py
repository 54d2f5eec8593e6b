#!/usr/bin/python3
"""Local circumstances beside the Swiss Ephemeris over the same coefficients and with the same delta T: eclipses of the
Sun and of the Moon, and occultations of planets and stars, each at two places.

    bench/eclipses_of_places.py [--within SECONDS] [--keep FILE] HEADER TEXT.. -- YEAR_2000

HEADER TEXT.. are JPL's text of DE405 from 1960 to 1980, YEAR_2000 is examples/de405-2000.asc. It prints the difference
of each contact in seconds and whether both say that it is above the horizon; its status is 1 where a difference is
larger than `--within` or one says otherwise. `--keep` writes the library's answers, which
python/tests/test_sky_swiss.py has. It needs Debian's libswe-dev, swe-basic-data and pluto-jpl-eph, a C compiler and
erfa."""

import json
import os
import sys
import tempfile
from pathlib import Path

TOP = Path(__file__).resolve().parents[1]
sys.path.insert(0, str(TOP / "python"))

import finder  # noqa: E402
from tests import swiss  # noqa: E402


def main():
    words = sys.argv[1:]
    within, keep = 1.0, None
    while words and words[0] in ("--within", "--keep"):
        if words[0] == "--within":
            within = float(words[1])
        else:
            keep = words[1]
        words = words[2:]
    if "--" not in words:
        print(__doc__, file=sys.stderr)
        return 2
    os.environ.setdefault("FINDER", str(TOP / "release" / "finder-x86_64-linux"))
    middle = words.index("--")
    sources = {True: words[middle + 1 :], False: words[:middle]}
    answers, good, largest = {}, True, 0.0
    with tempfile.TemporaryDirectory() as folder:
        peers, texts = {}, {}
        for is_2000, files in sources.items():
            (Path(folder) / str(is_2000)).mkdir()
            peers[is_2000] = swiss.peer(Path(folder) / str(is_2000), files)
            texts[is_2000] = finder.Ephemeris.open(files)
        for case in swiss.CASES:
            is_2000 = case.day.startswith("2000")
            answer = swiss.asked(peers[is_2000], case)
            answers[case.name] = {"flags": answer.flags, "times": answer.times, "attributes": answer.attributes}
            rows = swiss.compared(case, answer, swiss.found(texts[is_2000], case))
            shown = []
            for name, off, is_same in rows:
                holds = is_same and (off is None or abs(off) <= within)
                good = good and holds
                largest = max(largest, abs(off or 0.0))
                shown.append(f"{name} {'-' if off is None else f'{off:+.2f}'}{'' if holds else ' WRONG'}")
            print(f"{case.name}: {', '.join(shown)}")
    print(f"largest difference {largest:.2f} s; {'all hold' if good else 'not all hold'}")
    if keep:
        about = "answers of bench/swiss.c, by bench/eclipses_of_places.py --keep; times are seconds since J2000 (TT)"
        Path(keep).write_text(json.dumps({"about": about, "answers": answers}, indent=1) + "\n", "utf-8")
    return 0 if good else 1


if __name__ == "__main__":
    sys.exit(main())
