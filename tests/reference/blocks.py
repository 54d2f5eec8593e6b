"""The blocks after the header, and the ephemeris that the files are. The first rule that is broken is the fault."""

from __future__ import annotations

from typing import Iterable, Optional

from .decimals import Decimal, NumberFault, read_decimal, read_whole
from .ephemeris import BODY_COLUMNS, Ephemeris, Header, places_of
from .faults import Fault
from .header import JoinedLines, LinesEnded, read_header, seconds_of_date

MAX_BLOCKS = 16_384
"""The most blocks of an ephemeris."""
MAX_LENGTH = 2**36
"""Coefficients of bodies are below this number of km in magnitude."""


def read_ephemeris(files: Iterable[tuple[bytes, bytes]]) -> Ephemeris:
    """The ephemeris of files by their names and bytes, in order. Raises `FileError` with their first fault."""
    lines = JoinedLines(files)
    reader = BlockReader(lines, read_header(lines))
    while reader.read_block():
        pass
    return reader.ephemeris()


class BlockReader:
    """Reads blocks from lines by the header before them."""

    def __init__(self, lines: JoinedLines, header: Header) -> None:
        self.lines, self.header = lines, header
        self.accepted: Optional[Ephemeris] = None
        bodies = enumerate(header.columns[:BODY_COLUMNS], 1)
        present = [places_of(number, column) for number, column in bodies if column.is_present]
        self.body_places = {place for places in present for place in places}

    def ephemeris(self) -> Ephemeris:
        """The accepted blocks; there has to be one."""
        if self.accepted is None:
            raise self.lines.error(Fault.NoBlock)
        return self.accepted

    def read_block(self) -> bool:
        """Reads the next block and accepts or skips it. Returns False if there is none."""
        try:
            tokens = self.lines.tokens()
        except LinesEnded:
            return False
        self._check_record(tokens)
        numbers: list[Decimal] = []
        try:
            while len(numbers) < self.header.ncoeff:
                self._read_numbers(self.lines.tokens(), numbers)
        except LinesEnded:
            raise self.lines.error(Fault.Truncated) from None
        self._accept(numbers)
        return True

    def _check_record(self, tokens: list[bytes]) -> None:
        """A block begins with exactly two whole numbers, a record number and NCOEFF."""
        numbers = [read_whole(token) for token in tokens]
        if len(numbers) != 2 or None in numbers:
            raise self.lines.error(Fault.RecordLine)
        if numbers[1] != self.header.ncoeff:
            raise self.lines.error(Fault.NcoeffDiffers)

    def _read_numbers(self, tokens: list[bytes], numbers: list[Decimal]) -> None:
        """Adds the numbers of a line; words after the last number of the block have to be zeros."""
        for token in tokens:
            number = read_decimal(token)
            if len(numbers) == self.header.ncoeff:
                if isinstance(number, NumberFault) or number.mantissa != 0:
                    raise self.lines.error(Fault.TrailingNumbers)
                continue
            if isinstance(number, NumberFault):
                raise self.lines.error(Fault.Number, number)
            numbers.append(number)
            if len(numbers) == 1:
                self._second_of(number)
            elif len(numbers) == 2:
                self._check_span(self._second_of(numbers[0]), self._second_of(number))
            if len(numbers) in self.body_places and number.has_magnitude(MAX_LENGTH):
                raise self.lines.error(Fault.TooLarge)

    def _second_of(self, date: Decimal) -> int:
        second = seconds_of_date(date)
        if isinstance(second, Fault):
            raise self.lines.error(Fault.BlockSpan)
        return second

    def _is_skipped(self, last: int) -> bool:
        """A block that ends no later than the last accepted one is read by the same rules, and skipped."""
        return self.accepted is not None and last <= self.accepted.end

    def _check_span(self, first: int, last: int) -> None:
        """A block has the header's length, and begins where the last accepted one ended, if it is not skipped."""
        if last - first != self.header.block_seconds:
            raise self.lines.error(Fault.BlockSpan)
        if self.accepted is None or self._is_skipped(last):
            return
        if first != self.accepted.end:
            raise self.lines.error(Fault.BlockGap)
        if len(self.accepted.blocks) == MAX_BLOCKS:
            raise self.lines.error(Fault.TooManyBlocks)

    def _accept(self, numbers: list[Decimal]) -> None:
        if self.accepted is None:
            self.accepted = Ephemeris(self.header, self._second_of(numbers[0]))
        if not self._is_skipped(self._second_of(numbers[1])):
            self.accepted.blocks.append(tuple(numbers))
