"""Reports as they stand, without numpy: read, joined and planned. `tools/spans` does so from a shell."""

from .process.path import PROGRAM, NoProgram, find_program
from .reports.calendar import DAY, WrongReport, calendar_of, days_of, ticks_of, time_text
from .reports.joining import WrongParts, columns_in_use, is_seam, join, join_certificates, join_parts, join_sets
from .reports.plans import cut, spans_of_files
from .reports.reading import one_of, read_parts, read_report, read_summary
from .reports.report import (
    REQUEST,
    SET_REQUEST,
    CertificateText,
    Part,
    Piece,
    Report,
    SetReport,
    Summary,
    Window,
    read_head,
    span_text,
    words_of,
)

__all__ = [
    "CertificateText",
    "DAY",
    "NoProgram",
    "PROGRAM",
    "Part",
    "Piece",
    "REQUEST",
    "Report",
    "SET_REQUEST",
    "SetReport",
    "Summary",
    "Window",
    "WrongParts",
    "WrongReport",
    "calendar_of",
    "columns_in_use",
    "cut",
    "days_of",
    "find_program",
    "is_seam",
    "join",
    "join_certificates",
    "join_parts",
    "join_sets",
    "one_of",
    "read_head",
    "read_parts",
    "read_report",
    "read_summary",
    "span_text",
    "spans_of_files",
    "ticks_of",
    "time_text",
    "words_of",
]
