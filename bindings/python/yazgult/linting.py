"""What a linter of Python needs: spans by lines and columns, and reports of syntax errors."""

from __future__ import annotations

import functools
import re
from typing import Any, List, Optional, Tuple

from .errors import NotDrawable
from .report import Level, Report

# How each unit of columns encodes a line, and how many bytes a column has then.
ENCODINGS = {"char": ("utf-32-le", 4), "byte": ("utf-8", 1), "utf16": ("utf-16-le", 2)}
# Halves of surrogate pairs, which no report holds; the name of a file may.
HALVES = re.compile("[\ud800-\udfff]")


def span(
    source: str, line: int, column: int, end_line: Optional[int] = None, end_column: Optional[int] = None, *, unit: str = "char"
) -> Tuple[int, int]:
    """The span from a place to the one after it, in characters of the source, as marks and patches take it.

    Lines and columns count from 1; `unit` says what columns count: "char", "byte" (so does `ast`, but from 0) or "utf16". Without an end
    the span is the one character that stands there, with `end_line` alone it goes to the end of that line, and with `end_column` alone it
    stays on its line. A place that the source doesn't have is told as NotDrawable.

        >>> span("a = b\\nc = d\\n", 2, 5)
        (10, 11)
    """
    if not isinstance(source, str):
        raise NotDrawable(f"source: expected a text, found a value of type {type(source).__name__}")
    if not isinstance(unit, str) or unit not in ENCODINGS:
        raise NotDrawable('unit: expected "char", "byte" or "utf16"')
    start = place_of(source, ("line", line), ("column", column), unit)
    last = line if end_line is None else end_line
    if end_column is not None:
        return start, place_of(source, ("end_line", last), ("end_column", end_column), unit)
    end = text_of(source, "end_line", last)[1]
    return start, end if end_line is not None else min(start + 1, end)


def place_of(source: str, line: Tuple[str, Any], column: Tuple[str, Any], unit: str) -> int:
    """The place of a line and a column, each with its name, in characters of the source."""
    start, end = text_of(source, *line)
    name, count = column
    encoding, width = ENCODINGS[unit]
    try:
        text = source[start:end].encode(encoding)
        if not is_from_1(count, len(text) // width + 1):
            raise NotDrawable(f"{name}: expected a number from 1 to {len(text) // width + 1}, which are those of its line, found {shown(count)}")
        return start + len(text[: (count - 1) * width].decode(encoding))
    except UnicodeEncodeError:
        raise NotDrawable("source: half of a surrogate pair stands in it") from None
    except UnicodeDecodeError:
        raise NotDrawable(f"{name}: {count} is inside a character") from None


def text_of(source: str, name: str, line: Any) -> Tuple[int, int]:
    """Where the text of a line starts and ends, without its line feed."""
    starts = line_starts(source)
    if not is_from_1(line, len(starts)):
        raise NotDrawable(f"{name}: expected a number from 1 to {len(starts)}, which are those of the source's lines, found {shown(line)}")
    return starts[line - 1], starts[line] - 1 if line < len(starts) else len(source)


@functools.lru_cache(maxsize=1)
def line_starts(source: str) -> List[int]:
    """Where each line of a source starts. Those of the last source are kept, since a linter asks for many places of one file."""
    return [0, *(it.end() for it in re.finditer("\n", source))]


def is_from_1(value: object, most: int) -> bool:
    """Whether a value is a number from 1 to this one."""
    return isinstance(value, int) and not isinstance(value, bool) and 1 <= value <= most


def shown(value: object) -> str:
    """A value as words tell it: a small number as it is, all else by its type."""
    return str(value) if isinstance(value, int) and value.bit_length() <= 64 else f"a value of type {type(value).__name__}"


# ---- syntax errors


def from_syntax_error(error: SyntaxError, source: Optional[str] = None) -> Report:
    """The report of a syntax error: its message, and a mark where it is.

    The line is the one that the error has. With the whole `source` lines around it can be shown too, and a mark can go over several lines.
    What an error says of places that aren't in the source is taken for the nearest place that is.
    """
    if not isinstance(error, SyntaxError):
        raise NotDrawable(f"expected a SyntaxError, found a value of type {type(error).__name__}")
    if source is not None and not isinstance(source, str):
        raise NotDrawable(f"source: expected a text, found a value of type {type(source).__name__}")
    report = Report()
    group = report.group(Level("error", type(error).__name__), whole(error.msg) or "no detail is known")
    path, line = whole(error.filename), counted(error.lineno)
    text = whole(error.text) if source is None else whole(source)
    if text is not None and line is not None:
        first = line if source is None else 1
        start, end = marked(text, error, line - first + 1, first)
        group.snippet(text, path, line_start=first).mark(start, end)
    elif path is not None:
        group.origin(path, line, counted(error.offset) if line else None)
    return report


def marked(text: str, error: SyntaxError, line: int, first: int) -> Tuple[int, int]:
    """The span of an error in a text that begins with the file's line `first`."""
    start, column, end_column = nearest(text, line, 1), counted(error.offset), counted(getattr(error, "end_offset", None))
    if column is None:
        end = nearest(text, line, len(text) + 1)
        return end - len(text[start:end].lstrip()), end
    start, end_line = nearest(text, line, column), counted(getattr(error, "end_lineno", None))
    if end_line is not None and end_column is not None:
        end = nearest(text, end_line - first + 1, end_column)
        if end > start:
            return start, end
    return start, nearest(text, line, column + 1)


def nearest(text: str, line: int, column: int) -> int:
    """The place of a line and a column, or what is nearest to it in the text."""
    if line > len(line_starts(text)):
        return len(text)
    start, end = text_of(text, "line", max(line, 1))
    return min(start + column - 1, end)


def counted(value: object) -> Optional[int]:
    """A number that counts lines or columns, where it is one."""
    return value if isinstance(value, int) and is_from_1(value, 1 << 32) else None


def whole(value: object) -> Optional[str]:
    """A text without halves of surrogate pairs, where it is one."""
    return HALVES.sub("\ufffd", value) if isinstance(value, str) else None
