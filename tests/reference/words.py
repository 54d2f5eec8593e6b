"""The words of a command line: options by their names, and what else stands there."""

from __future__ import annotations

from typing import Iterable, NamedTuple

from .faults import Fault, WordsError


class SplitWords(NamedTuple):
    """The word of each option that is given, and the other words in order."""

    options: dict[str, bytes]
    others: list[bytes]


class _Splitter:
    """Takes words one by one. An option may wait for its value, and after `--` no word is an option."""

    def __init__(self, names: Iterable[str]) -> None:
        self.names = {name.encode(): name for name in names}
        self.split = SplitWords({}, [])
        self.waiting = ""
        self.only_others = False

    def take(self, word: bytes) -> None:
        """Takes the next word."""
        if self.only_others:
            self.split.others.append(word)
        elif word.startswith(b"--"):
            self._end_waiting()
            if word == b"--":
                self.only_others = True
            else:
                self._begin(word[2:])
        elif word.startswith(b"-") and word != b"-":
            raise WordsError(Fault.Words)
        elif self.waiting:
            self._keep(self.waiting, word)
            self.waiting = ""
        else:
            self.split.others.append(word)

    def _begin(self, text: bytes) -> None:
        """`name=value` is an option with its value, and `name` one that waits for it."""
        name, equals, value = text.partition(b"=")
        if name not in self.names:
            raise WordsError(Fault.Words)
        if equals:
            self._keep(self.names[name], value)
        else:
            self.waiting = self.names[name]

    def _keep(self, name: str, value: bytes) -> None:
        """An option stands once."""
        if name in self.split.options:
            raise WordsError(Fault.Words)
        self.split.options[name] = value

    def _end_waiting(self) -> None:
        if self.waiting:
            raise WordsError(Fault.Words)

    def end(self) -> SplitWords:
        """What the words are, once all were taken."""
        self._end_waiting()
        return self.split


def split_words(words: Iterable[bytes], names: Iterable[str]) -> SplitWords:
    """Splits words by the options of a command. Raises `WordsError` with 62.

    An option is `--name value` or `--name=value`, once. A value in a word of its own does not begin with `-`, except
    for the lone `-`. Any other word that begins with one `-` is refused. After `--` no word is an option.
    """
    splitter = _Splitter(names)
    for word in words:
        splitter.take(word)
    return splitter.end()
