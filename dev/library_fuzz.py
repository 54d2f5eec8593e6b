"""A fuzz of the bytes of the library for C under AddressSanitizer, for `dev/fuzz library FOLDER SECONDS`.

What the compiler was given of the library, finder.build/library.bc of release/library, is compiled once more by the
kit's clang with AddressSanitizer, and called by tests/support/library_calls.c. Each call is one of the stored cases
with its bytes changed at random. A call that ends the process is kept in FOLDER/crashes; one that takes past ten
seconds is ended and counted."""

from __future__ import annotations

import re
import signal
import struct
import subprocess
import time
from collections import Counter
from pathlib import Path
from random import Random

from tests.support.library_runs import FLAGS, MALFORMED, SOURCE, Caller, compiler, laid_out
from tests.support.records import CASES, TOP, Case, read_cases

MODULE = TOP / "finder.build" / "library.bc"
STATUSES = (*range(11), MALFORMED)
CALL_SECONDS = 10
LONGEST = 65_536
# The share of calls whose layout is sound.
SOUND = 0.8
ATTRIBUTES = re.compile(r"^(attributes #\d+ = \{)", re.MULTILINE)
# Bytes that mean something to a reader of words or files.
PARTS = (b"\0", b"--", b"=", b"-", b"9" * 19, b"0.5", b"\xff", b"\xed\xa0\x80", struct.pack("<Q", 2**64 - 1), b"\n", b"D+")

Call = tuple[bytes, bytes]


class TooLong(Exception):
    """A call takes longer than it may."""


def build(folder: Path) -> Path:
    """Compiles the library with AddressSanitizer, and what calls it."""
    if not MODULE.is_file():
        raise SystemExit("fuzz: there is no finder.build/library.bc: release/library makes it")
    kit = Path(subprocess.run(["rt", "doc"], stdout=subprocess.PIPE, check=True, text=True).stdout.strip()).parent
    clang, text = [kit / "toolchain/bin/clang", "--no-default-config", "-x", "ir"], folder / "library.ll"
    subprocess.run([*clang, "-S", "-emit-llvm", "-Xclang", "-disable-llvm-passes", MODULE, "-o", text], check=True)
    text.write_text(ATTRIBUTES.sub(r"\1 sanitize_address", text.read_text("utf-8")), "utf-8")
    code, made = folder / "library.o", folder / "calls"
    subprocess.run([*clang, "-c", "-O1", "-fPIC", "-fsanitize=address", text, "-o", code], check=True)
    libraries = ["-Wl,--whole-archive", kit / "c/asan.a", "-Wl,--no-whole-archive", kit / "c/liblibc_c.a"]
    system = ["-ldl", "-lpthread", "-lrt", "-lm", "-lstdc++", "-rdynamic"]
    subprocess.run([compiler(), *FLAGS, "-o", made, SOURCE, code, *libraries, *system], check=True)
    return made


def seeds() -> list[Case]:
    """The stored cases that a call can say, and that are short."""
    every = (case for file in sorted(CASES.glob("*.cases")) for case in read_cases(file.name))
    calls = (case for case in every if not any(b"\0" in part for part in [*case.words, *case.files]))
    return [case for case in calls if sum(map(len, [*case.words, *case.files.values()])) <= LONGEST]


def changed(rng: Random, given: bytes, other: bytes) -> bytes:
    """Bytes with one change."""
    text, at = bytearray(given), rng.randrange(len(given) + 1)
    end = min(len(text), at + rng.choice((1, 1, 2, 8, 64, 1_000)))
    how = rng.randrange(6)
    if how == 0 and text:
        text[at % len(text)] ^= 1 << rng.randrange(8)
    elif how == 1:
        text[at:at] = rng.choice(PARTS)
    elif how == 2:
        del text[at:end]
    elif how == 3:
        text[at:at] = text[at:end]
    elif how == 4:
        first = rng.randrange(len(other) + 1)
        text[at:end] = other[first : first + end - at]
    else:
        text[at:end] = rng.choice(PARTS)
    return bytes(text)


def changed_parts(rng: Random, case: Case, other: Case) -> Call:
    """A call with a changed word, or a changed file, which is laid out as it has to be."""
    words, files = list(case.words), dict(case.files)
    if files and rng.random() < 0.5:
        name, another = rng.choice(list(files)), rng.choice([*other.files.values(), b""])
        files[name] = changed(rng, files[name], another)
    elif words:
        place = rng.randrange(len(words))
        words[place] = changed(rng, words[place], rng.choice([*other.words, b""])).replace(b"\0", b"")
    return laid_out(words, files)


def made_call(rng: Random, cases: list[Case]) -> Call:
    """A call that is changed somewhere: in a word or a file, or anywhere in its bytes."""
    case, other = rng.choice(cases), rng.choice(cases)
    if rng.random() < SOUND:
        return changed_parts(rng, case, other)
    call, another = laid_out(case.words, case.files), laid_out(other.words, other.files)
    place = rng.randrange(2)
    made = changed(rng, call[place], another[place])
    return (made, call[1]) if place == 0 else (call[0], made)


def ended(number: int, frame: object) -> None:
    """Says that a call takes too long."""
    raise TooLong


def keep(folder: Path, call: Call, number: int) -> None:
    """Keeps the bytes of a call that ended the process."""
    (folder / "crashes").mkdir(exist_ok=True)
    (folder / "crashes" / str(number)).write_bytes(struct.pack("<2Q", *map(len, call)) + call[0] + call[1])


def run(folder: Path, seconds: int) -> int:
    """Fuzzes for so long; the status."""
    folder.mkdir(parents=True, exist_ok=True)
    program, cases = build(folder), seeds()
    rng, counts, until = Random(time.time_ns()), Counter[str](), time.monotonic() + seconds
    caller = Caller(program)
    signal.signal(signal.SIGALRM, ended)
    while time.monotonic() < until:
        call = made_call(rng, cases)
        signal.alarm(CALL_SECONDS)
        try:
            status = caller.call(*call, room=rng.choice((0, 1, 100, 65_536))).status
            counts["calls" if status in STATUSES else "unknown statuses"] += 1
            counts[f"status {status}"] += 1
        except (TooLong, struct.error, BrokenPipeError) as error:
            counts["too long" if isinstance(error, TooLong) else "crashes"] += 1
            if not isinstance(error, TooLong):
                keep(folder, call, counts["crashes"])
            caller.kill()
            caller = Caller(program)
        finally:
            signal.alarm(0)
    counts["crashes"] += caller.close() != 0
    print("fuzz: " + ", ".join(f"{count} {name}" for name, count in sorted(counts.items()) if count))
    return 1 if counts["crashes"] or counts["unknown statuses"] else 0
