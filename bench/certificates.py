"""Certificates of searches of every kind over a file: that they are verified, and that changed ones are refused.

    certificates.py PROGRAM FILE CHANGES [REFERENCE]

Of each search `cert` is asked for a certificate and `verify` for its windows, which have to be the report of `find`, byte for
byte, and after it the number of leaves. Then a digit, a letter or a line of the certificate is changed, left out, doubled or
swapped with the next one, CHANGES times for each search, and each has to be refused. REFERENCE is a folder with a module
`finder_ref` whose `finder(words, files)` gives a status and what both outputs gain; where it is named, each answer has to be
its answer, byte for byte.
"""
import os
import random
import subprocess
import sys
import tempfile

EARTH = "--observer earth"
SEARCHES = {
    "coord": "--target mercury --axis x",
    "radius": f"--target moon {EARTH} --ref 384400",
    "apsis": f"--target moon {EARTH}",
    "conj": f"--target mercury --second venus {EARTH}",
    "oppo": f"--target jupiter --second sun {EARTH} --frame ecl",
    "station": f"--target mercury {EARTH}",
    "sep": f"--target mercury --second venus {EARTH} --ref 0.998",
    "sepext": f"--target mercury --second venus {EARTH}",
    "any": f"--target moon --second sun {EARTH} --radius1 8115.5 --radius2 696000",
    "full": f"--target moon --second sun {EARTH} --radius1 8115.5 --radius2 696000",
    "annular": f"--target moon --second sun {EARTH} --radius1 1737.4 --radius2 696000",
}


def changed(text, rng):
    """The text with one change, and what it was."""
    lines = text.split(b"\n")[:-1]
    k = rng.randrange(len(lines))
    how = rng.choice(["digit", "letter", "drop", "double", "swap"])
    if how in ("digit", "letter"):
        places = [i for i, b in enumerate(lines[k]) if (48 <= b < 58) == (how == "digit") and b > 32]
        if not places:
            return changed(text, rng)
        i = rng.choice(places)
        old = lines[k][i:i + 1]
        new = rng.choice([c for c in (b"0123456789" if how == "digit" else b"NRFU") if bytes([c]) != old])
        lines[k] = lines[k][:i] + bytes([new]) + lines[k][i + 1:]
    elif how == "drop":
        del lines[k]
    elif how == "double":
        lines.insert(k, lines[k])
    else:
        k = rng.randrange(len(lines) - 1)
        lines[k], lines[k + 1] = lines[k + 1], lines[k]
    return how, k + 1, b"".join(line + b"\n" for line in lines)


def run(program, words):
    """Status and outputs of the program."""
    done = subprocess.run([program] + words, stdout=subprocess.PIPE, stderr=subprocess.PIPE, check=False)
    return done.returncode, done.stdout, done.stderr


def reference_in(folder, files):
    """The reference's call over these files and a certificate; it reads the files once."""
    sys.path.insert(0, folder)
    import finder_ref

    read = finder_ref.read_ephemeris
    known = {}

    def read_once(shelf, names, *more):
        key = (tuple(names),) + more
        if key not in known:
            known[key] = read(shelf, names, *more)
        return known[key]

    finder_ref.read_ephemeris = read_once
    return lambda words, cert: finder_ref.finder(words, dict(files, **{"certificate": cert}))


def main():
    """The command."""
    program, name, changes = sys.argv[1], sys.argv[2], int(sys.argv[3])
    with open(name, "rb") as f:
        files = {"ephemeris": f.read()}
    reference = reference_in(sys.argv[4], files) if len(sys.argv) > 4 else None
    rng = random.Random(1)
    bad = 0
    with tempfile.TemporaryDirectory() as work:
        os.chdir(work)
        with open("ephemeris", "wb") as f:
            f.write(files["ephemeris"])
        for kind, options in SEARCHES.items():
            words = ["--kind", kind] + options.split()
            report = run(program, ["find"] + words + ["ephemeris"])
            cert = run(program, ["cert"] + words + ["ephemeris"])
            verify = ["verify"] + words + ["--cert", "certificate", "ephemeris"]
            leaves = cert[1].count(b"\nL ")
            with open("certificate", "wb") as f:
                f.write(cert[1])
            wanted = (0, report[1] + b"VERIFIED leaves %d\n" % leaves, b"")
            same = report[0] == 0 and cert[0] == 0 and run(program, verify) == wanted
            refused = passed = differ = 0
            for _ in range(changes):
                how, line, text = changed(cert[1], rng)
                with open("certificate", "wb") as f:
                    f.write(text)
                got = run(program, verify)
                refused += got[0] == 10 and not got[1]
                passed += got[0] != 10
                if reference and got != tuple(reference(verify, text)):
                    differ += 1
                    print("  differs:", kind, how, line, got[0], got[2])
            print("%-8s leaves %6d bytes %8d verified %s refused %d other %d differ %s" % (
                kind, leaves, len(cert[1]), same, refused, passed, differ if reference else "-"))
            bad += (not same) + passed + differ
    return 1 if bad else 0


if __name__ == "__main__":
    sys.exit(main())
