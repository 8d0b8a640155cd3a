"""Prints reports as the terminal they are shown on has it."""

from __future__ import annotations

import os
import sys
from typing import TYPE_CHECKING, Any, Optional, Sequence, TextIO, Union

from .drawing import Settings, Sheet, render
from .errors import NotDrawable
from .report import Groups, Report

if TYPE_CHECKING:
    from typing_extensions import Unpack


def print_report(
    report: Union[Report, Groups],
    file: Optional[TextIO] = None,
    *,
    sheet: Optional[Sheet] = None,
    spans: str = "characters",
    sources: Optional[Sequence[str]] = None,
    **settings: Unpack[Settings],
) -> None:
    """Prints a report, and a line feed, into a file: standard error, where none is given.

    On a terminal it has colours, unless the variable `NO_COLOR` is set to anything but nothing, or `TERM` is "dumb"; a `sheet` decides for
    itself. It is as wide as the variable `COLUMNS` says, or else as the terminal is, unless `term_width` is given. A character that the
    file's encoding doesn't have is written as an escape. The rest is as of `render`.
    """
    target: Any = sys.stderr if file is None else file
    if target is not None and not callable(getattr(target, "write", None)):
        raise NotDrawable(f"file: expected one that can be written, found a value of type {type(target).__name__}")
    on_terminal = is_terminal(target)
    width = width_of(target, on_terminal)
    if width is not None:
        settings.setdefault("term_width", width)
    if sheet is None:
        sheet = "default" if on_terminal and has_colours() else "plain"
    text = render(report, sheet, spans=spans, sources=sources, **settings)
    # A program without a console has no standard error.
    if target is not None:
        put(writable(text, target) + "\n", target)


def put(text: str, file: Any) -> None:
    """Writes a text into a file."""
    try:
        file.write(text)
    except TypeError as error:
        raise NotDrawable(f"file: it takes no text, as one of bytes: {error}") from error


def is_terminal(file: Any) -> bool:
    """Whether a file says that it is a terminal."""
    ask = getattr(file, "isatty", None)
    return callable(ask) and bool(ask())


def has_colours() -> bool:
    """Whether colours are wanted, and the terminal shows them, by its variables."""
    return not os.environ.get("NO_COLOR") and os.environ.get("TERM") != "dumb"


def width_of(file: Any, on_terminal: bool) -> Optional[int]:
    """How many columns a line has, where that is known."""
    named = os.environ.get("COLUMNS", "")
    if named.isascii() and named.isdigit() and len(named) < 20 and int(named) > 0:
        return int(named)
    try:
        # A terminal that knows no width says 0.
        return os.get_terminal_size(file.fileno()).columns or None if on_terminal else None
    except (AttributeError, OSError, TypeError, ValueError):
        return None


def writable(text: str, file: Any) -> str:
    """A text as the file can write it."""
    encoding = getattr(file, "encoding", None)
    if not isinstance(encoding, str):
        return text
    try:
        return text.encode(encoding, "backslashreplace").decode(encoding)
    except (LookupError, UnicodeError):
        return text
