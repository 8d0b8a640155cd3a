"""A source that the library keeps, for reports to come."""

from __future__ import annotations

import ctypes
import threading
from typing import Any, List, Sequence, Tuple

from .errors import NotDrawable, OutOfMemory
from .library import function_of


# How many characters stand between two places whose bytes are known.
STEP = 1 << 12


class Sources(ctypes.Structure):
    """A list of sources, as yazgult.h has it. What it leads to is the library's, and it is used by one call at a time."""

    _fields_ = [("kept", ctypes.c_void_p)]

    def __init__(self) -> None:
        super().__init__()
        self.told = function_of("yazgult_sources_new")(ctypes.byref(self))

    def __del__(self) -> None:
        if self.kept:
            function_of("yazgult_sources_free")(ctypes.byref(self))


class Source:
    """A source that many reports show: it stands in a snippet in the place of its text, is copied once, and its lines are found once.

    >>> from yazgult import Report, Source, render
    >>> source = Source("let x = 1;\\n" * 10000)
    >>> report = Report()
    >>> snippet = report.group("error", "unused").snippet(source).mark(4, 5)
    >>> print(render(report))
    error: unused
      |
    1 | let x = 1;
      |     ^
    """

    def __init__(self, text: str):
        if not isinstance(text, str):
            raise NotDrawable(f"a source: expected a text, found a value of type {type(text).__name__}")
        try:
            encoded = text.encode()
        except UnicodeEncodeError:
            raise NotDrawable("a source: half of a surrogate pair stands in it") from None
        self.text, self.size, self.starts = text, len(encoded), starts_in(text)
        self._lock, self._list = threading.Lock(), Sources()
        if self._list.told or function_of("yazgult_sources_add")(encoded, self.size, ctypes.byref(self._list)):
            raise OutOfMemory("there is no memory to keep the source")

    def __reduce__(self) -> Tuple[Any, ...]:
        """A copy is a source of the same text, that is kept too."""
        return type(self), (self.text,)

    def __repr__(self) -> str:
        return f"Source({self.size} bytes)"

    def share_into(self, others: Sources) -> None:
        """Keeps the source after others, too, in the list of a call."""
        with self._lock:
            if function_of("yazgult_sources_share")(ctypes.byref(self._list), ctypes.byref(others)):
                raise OutOfMemory("there is no memory to hand the sources over")


def starts_in(text: str) -> List[int]:
    """The bytes before which so many times STEP characters of a text stand."""
    starts, at = [0], 0
    for place in range(STEP, len(text) + 1, STEP):
        at += len(text[place - STEP : place].encode())
        starts.append(at)
    return starts


def listed(sources: Sequence[Source]) -> Any:
    """A list of these sources, for one call."""
    made = Sources()
    if made.told:
        raise OutOfMemory("there is no memory to hand the sources over")
    for it in sources:
        it.share_into(made)
    return ctypes.byref(made)
