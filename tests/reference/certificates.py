"""Certificates: the leaves of a search as a text, and whether the lines of a text are such leaves."""

from __future__ import annotations

import re
from typing import Optional, Sequence, Union

from .faults import CertificateError, Fault
from .lines import MAX_LINE, cut_lines, end_number, tokens_of
from .searches import Judge, Leaf
from .verdicts import Node, Verdict

MAX_LEAVES = 4_194_304
"""The most leaves of a certificate."""
FIRST_LINE = b"CERT 1"

_TIME = re.compile(rb"-?[0-9]{1,15}")
_DEPTH = re.compile(rb"[0-9]{1,2}")
_COUNT = re.compile(rb"[0-9]{1,8}")
_MARKS = {verdict.value.encode(): verdict for verdict in Verdict if verdict is not Verdict.SPLIT}


def certificate(request_line: bytes, leaves: Sequence[Leaf]) -> bytes:
    """The certificate of the leaves of a search, by the line of its request."""
    lines = [FIRST_LINE, request_line]
    lines += [b"L %d %d %d %s" % (*node, verdict.value.encode()) for node, verdict in leaves]
    return b"".join(line + b"\n" for line in [*lines, b"END leaves %d" % len(leaves)])


def _entry(tokens: list[bytes]) -> Union[Leaf, int, None]:
    """The leaf that a line says, or the number of leaves that an end says, or None."""
    if len(tokens) == 3 and tokens[:2] == [b"END", b"leaves"] and _COUNT.fullmatch(tokens[2]):
        return int(tokens[2])
    if len(tokens) != 5 or tokens[0] != b"L" or tokens[4] not in _MARKS:
        return None
    first, last, depth = tokens[1:4]
    if not (_TIME.fullmatch(first) and _TIME.fullmatch(last) and _DEPTH.fullmatch(depth)):
        return None
    return Leaf(Node(int(first), int(last), int(depth)), _MARKS[tokens[4]])


class Checker:
    """Checks the leaves of a certificate one by one against the nodes that wait for them, at first the root."""

    def __init__(self, judge: Judge, root: Node) -> None:
        self.judge = judge
        self.waiting = [root]
        self.leaves: list[Leaf] = []
        self.has_ended = False

    def fault_of(self, entry: Union[Leaf, int, None]) -> Optional[Fault]:
        """Takes what the next line says, and returns the first rule that it breaks, or None."""
        if entry is None:
            return Fault.CertLine
        if self.has_ended:
            return Fault.CertEnd
        if isinstance(entry, int):
            self.has_ended = True
            return Fault.CertEnd if self.waiting or entry != len(self.leaves) else None
        return self._fault_of_leaf(entry)

    def _fault_of_leaf(self, leaf: Leaf) -> Optional[Fault]:
        """A leaf has to be a node that cutting leads to, and its mark the verdict on it."""
        if not self.waiting:
            return Fault.CertEnd
        if not self._reach(leaf.node):
            return Fault.CertPlace
        if self.judge.verdict(leaf.node) is not leaf.verdict:
            return Fault.CertMark
        self.leaves.append(leaf)
        return None

    def _reach(self, node: Node) -> bool:
        """Cuts the first node that waits, and its left part again, until it is the node, which is then taken away."""
        here = self.waiting.pop(0)
        rights: list[Node] = []
        while here != node:
            if here.first != node.first or here.last <= node.last or not self.judge.may_be_cut(here):
                return False
            here, right = self.judge.cut(here)
            rights.insert(0, right)
        self.waiting[:0] = rights
        return True


def checked_leaves(text: bytes, request_line: bytes, judge: Judge, root: Node) -> list[Leaf]:
    """The leaves of a certificate that breaks no rule. Raises `CertificateError` at the first line that breaks one."""
    checker = Checker(judge, root)
    heads = [(FIRST_LINE.split(), Fault.CertLine), (request_line.split(), Fault.CertRequest)]
    for number, line in enumerate(cut_lines(text), 1):
        tokens = tokens_of(line)
        fault: Optional[Fault] = None
        if len(line) > MAX_LINE:
            fault = Fault.CertLine
        elif tokens and heads:
            right, fault_of_head = heads.pop(0)
            fault = None if tokens == right else fault_of_head
        elif tokens:
            fault = checker.fault_of(_entry(tokens))
        if fault:
            raise CertificateError(fault, number)
    if not checker.has_ended:
        raise CertificateError(Fault.CertEnd, end_number(text))
    return checker.leaves
