"""Why a report isn't drawn: each exception of this package, all of them an `Error`."""

from __future__ import annotations

from typing import Any, Dict, Tuple, Type

# How long the words of an exception are at most, and how much of their end is kept where they are longer.
LONGEST, END = 300, 100


def short(words: str) -> str:
    """Words of at most 300 characters, without their middle where they are longer, and each a character that is seen."""
    if len(words) > LONGEST:
        words = f"{words[: LONGEST - END - 3]} … {words[-END:]}"
    return "".join(it if it.isprintable() else ascii(it)[1:-1] for it in words)


class Error(Exception):
    """What this package raises."""


class LibraryNotFound(Error, ImportError):
    """The library libyazgult isn't there, or can't be loaded; the words say how to get it."""


class OutOfMemory(Error, MemoryError):
    """There is no memory to draw the report."""


class NotDrawable(Error, ValueError):
    """What was handed over is no report: the words name the field by its path, as `groups[0].title.text`."""

    def __init__(self, words: str) -> None:
        super().__init__(short(words))


def with_words(kind: Type[Refused], *words: str) -> Refused:
    """A refusal of a kind, by its words as they are."""
    return kind.__new__(kind, *words)


class Refused(Error):
    """A report gives no text. Each kind of refusal is a class of its own, with the numbers that it names, from 0, as fields; `path` is the
    field that it is about, as `groups[0].elements[1].cause.annotations[0]`, and `words` what the library says of it."""

    path: str
    words: str

    def __init__(self, path: str, words: str, **numbers: int) -> None:
        # The library's words begin with the numbers that the path has.
        super().__init__(f"{path}: {words.rpartition(': ')[2]}")
        self.path, self.words = path, words
        self.__dict__.update(numbers)

    def __reduce__(self) -> Tuple[Any, ...]:
        # What another process raises comes over with all of its fields.
        return with_words, (type(self), *self.args), vars(self)


class NoGroup(Refused):
    """The short form was asked for, and the report is empty."""


class NoTitle(Refused):
    """The short form was asked for, and the first group has no title."""


class OfSpan(Refused):
    """A span is wrong: that of this marker, an annotation or a patch, of this element of this group."""

    group: int
    element: int
    marker: int


class SpanReversed(OfSpan):
    """A span starts after its end."""


class SpanPastEnd(OfSpan):
    """A span ends after its source does."""


class SpanOffBoundary(OfSpan):
    """A span starts or ends inside a character."""


class PatchesOverlap(Refused):
    """Two patches of a snippet overlap."""

    group: int
    element: int
    first: int
    second: int


class LineNumberTooLarge(Refused):
    """The number after that of a snippet's last line is too large."""

    group: int
    element: int


KINDS = (NoGroup, NoTitle, SpanReversed, SpanPastEnd, SpanOffBoundary, PatchesOverlap, LineNumberTooLarge)
# Each kind of refusal by the name that the library has for it.
REFUSALS: Dict[str, Type[Refused]] = {it.__name__: it for it in KINDS}
