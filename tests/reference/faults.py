"""What a run can be refused for: the faults by their numbers and printed names, and the exit statuses."""

from __future__ import annotations

from enum import Enum, IntEnum


class Status(IntEnum):
    """The exit statuses. With each but `WRITTEN` and `WRITE_FAULT` nothing is written to standard output."""

    WRITTEN = 0
    WORDS = 2
    FILE = 3
    READ_FAULT = 4
    WRITE_FAULT = 5
    SPAN = 6
    EVENT = 7
    LEAVES = 9
    CERTIFICATE = 10


class Fault(Enum):
    """A fault with its number. A member has the name that is printed, in the program's spelling."""

    LineTooLong = 4
    TooManyFiles = 5
    FileTooLarge = 6
    FirstLine = 10
    GroupMissing = 11
    JdNotWholeSecond = 12
    CountMismatch = 13
    EmratMissing = 14
    EmratRange = 15
    ColumnCount = 16
    ColumnPlace = 17
    CoefficientCount = 18
    GranuleNotWhole = 19
    Limit = 20
    HeaderNumber = 21
    Ended = 22
    RecordLine = 30
    NcoeffDiffers = 31
    BlockSpan = 32
    BlockGap = 33
    Number = 34
    TooLarge = 35
    Truncated = 36
    NoBlock = 37
    TooManyBlocks = 38
    TrailingNumbers = 39
    BodyAbsent = 50
    SameBody = 51
    ReferenceRange = 52
    NoCommand = 60
    UnknownCommand = 61
    Words = 62
    BadValue = 63
    CertLine = 70
    CertRequest = 71
    CertPlace = 72
    CertMark = 73
    CertEnd = 74

    def __str__(self) -> str:
        return f"{self.value} {self.name}"


WITH_DETAIL = (Fault.GroupMissing, Fault.HeaderNumber, Fault.Number)
"""The faults of files that are printed with a detail: a group's number, or the number of a `NumberFault`."""


class FileError(Exception):
    """The first fault of the files: where it stands, and its detail, 0 if it has none."""

    def __init__(self, fault: Fault, name: bytes, line: int, detail: int = 0) -> None:
        super().__init__(fault, name, line, detail)
        self.fault, self.name, self.line, self.detail = fault, name, line, detail


class EventError(Exception):
    """The files do not have the event: 50, 51 or 52."""

    def __init__(self, fault: Fault) -> None:
        super().__init__(fault)
        self.fault = fault


class WordsError(Exception):
    """The command line is invalid: 60 to 63, and of 63 the option."""

    def __init__(self, fault: Fault, option: str = "") -> None:
        super().__init__(fault, option)
        self.fault, self.option = fault, option


class CertificateError(Exception):
    """The first line of a certificate that breaks a rule: 70 to 74."""

    def __init__(self, fault: Fault, line: int) -> None:
        super().__init__(fault, line)
        self.fault, self.line = fault, line
