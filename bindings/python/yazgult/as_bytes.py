"""A report as bytes, as docs/BINDINGS.md has it, which the library reads in a fraction of the time that a line of JSON takes.

Reports are written so that are plainly what they should be. Whatever else is met, right or wrong, ends it: JSON is written then, which can
say all that docs/REPORTS.md has, and what is wrong where it isn't that.
"""

from __future__ import annotations

from struct import Struct
from typing import Any, Callable, Dict, FrozenSet, List, Mapping, Optional, Sequence, Tuple

from .report import Element, Part, Report
from .source import STEP, Source

VERSION = b"\3"
encode = str.encode
NO, YES = b"\0", b"\1"
number: Callable[[int], bytes] = Struct("<Q").pack
ONE = number(1)
two_numbers: Callable[[int, int], bytes] = Struct("<QQ").pack
# The span of a mark, with what stands after it: that there is no label, or that there is one of so many bytes.
unlabelled: Callable[[int, int, bool], bytes] = Struct("<QQ?").pack
labelled: Callable[[int, int, bool, int], bytes] = Struct("<QQ?Q").pack
# What stands before a text that may be left out, and isn't: that it is there, and its length.
some: Callable[[bool, int], bytes] = Struct("<?Q").pack

KINDS = {kind: bytes([i]) for i, kind in enumerate(("error", "warning", "info", "note", "help"))}
MARKS = {kind: bytes([i]) for i, kind in enumerate(("primary", "context", "visible"))}
# The kind of a mark whose source isn't highlighted.
UNLIT = {kind: mark + NO for kind, mark in MARKS.items()}

# What `spans` names, and whether that is bytes.
COUNTS_BYTES = {"characters": False, "bytes": True}
# The fields that each part may have.
LEVEL = frozenset(("kind", "name"))
TITLE = frozenset(("level", "text", "primary", "id", "url"))
GROUP = frozenset(("title", "level", "elements"))
MESSAGE = frozenset(("level", "text"))
ORIGIN = frozenset(("path", "line", "column"))
SNIPPET = frozenset(("source", "path", "line_start", "line_numbering", "fold", "unit"))
CAUSE, SUGGESTION = SNIPPET | {"annotations"}, SNIPPET | {"patches"}
ANNOTATION = frozenset(("kind", "start", "end", "label", "highlight_source"))
PATCH = frozenset(("start", "end", "text"))
NOTHING: FrozenSet[str] = frozenset()
# What is known of a text that isn't kept: that no byte stands before its first character.
BEGINNING = [0]

# A style: no foreground or one of the terminal's, no background, and eight effects, of which bold is the first.
PLAIN, BOLD = NO + NO + bytes(8), NO + NO + YES + bytes(7)
BRIGHT_RED, BRIGHT_GREEN, YELLOW, BRIGHT_BLUE, BRIGHT_CYAN = (YES + NO + bytes([i]) for i in (9, 10, 3, 12, 14))
LEVEL_COLORS = (BRIGHT_RED, YELLOW, BRIGHT_BLUE, BRIGHT_GREEN, BRIGHT_CYAN)
# The styles of the five levels, of line numbers, of what stands out, of all else, of context, and of what is added and removed.
DEFAULT_STYLES = [color + BOLD[1:] for color in (*LEVEL_COLORS, BRIGHT_BLUE)] + [BOLD, PLAIN, BRIGHT_BLUE + BOLD[1:]]
DEFAULT_STYLES += [BRIGHT_GREEN + PLAIN[1:], BRIGHT_RED + PLAIN[1:]]
SHEETS = {"plain": PLAIN * 11, "default": b"".join(DEFAULT_STYLES)}


class Other(Exception):
    """What is met isn't plainly what it should be."""


def bytes_of(report: Any, sheets: Any, spans: Any, sources: Any, settings: Mapping[str, Any]) -> Optional[Tuple[bytes, List[Source]]]:
    """A report under these sheets, whose spans count "bytes" or "characters", and the sources that it names by numbers; none where it has to
    be written as JSON, as where sources go with it."""
    try:
        in_bytes = COUNTS_BYTES[spans]
        if isinstance(report, Report):
            report, sources = report.groups, report.sources if sources is None else sources
        if not (sources is None or type(sources) in (list, tuple) and not sources):
            raise Other
        groups, kept = listed(report), []
        made = [settings_of(settings) if settings else DEFAULT_SETTINGS, number(len(sheets))]
        made += map(SHEETS.__getitem__, sheets)
        made.append(number(len(groups)))
        for group in groups:
            add_group(group, in_bytes, kept, made)
        return b"".join(made), kept
    except MemoryError:
        raise
    except Exception:
        return None


def texts_of(answer: bytes) -> Optional[List[str]]:
    """The texts that the library answers, if it does."""
    if answer[0] != 0:
        return None
    texts, at = [], 9
    while at < len(answer):
        end = at + 8 + int.from_bytes(answer[at : at + 8], "little")
        texts.append(answer[at + 8 : end].decode())
        at = end
    return texts


# ---- parts


def fields(part: Any, names: FrozenSet[str]) -> Mapping[str, Any]:
    """The fields of a part, which has no other than these."""
    if type(part) is not dict:
        if not isinstance(part, Part):
            raise Other
        part = part.as_json()
    if part.keys() <= names:
        return part  # type: ignore[no-any-return]
    raise Other


def listed(members: Any) -> Sequence[Any]:
    """A list."""
    if type(members) is list or type(members) is tuple:
        return members  # type: ignore[no-any-return]
    raise Other


def whole(value: Any) -> int:
    """A whole number."""
    if type(value) is int:
        return value
    raise Other


def flag(value: Any, default: bytes) -> bytes:
    """Yes or no; the default where it is left out."""
    if value is None:
        return default
    if value is True:
        return YES
    if value is False:
        return NO
    raise Other


def text(value: Any) -> bytes:
    """A text."""
    encoded = encode(value)
    return number(len(encoded)) + encoded


def text_if(value: Any) -> bytes:
    """A text that may be left out."""
    if value is None:
        return NO
    encoded = encode(value)
    return some(True, len(encoded)) + encoded


def number_if(value: Any) -> bytes:
    """A number that may be left out."""
    return NO if value is None else YES + number(whole(value))


def add_group(group: Any, in_bytes: bool, kept: List[Source], made: List[bytes]) -> None:
    """Adds a group. Its level is read where it has no title, and else has to be one all the same."""
    held = fields(group, GROUP)
    title, level, elements = held["title"], held.get("level"), listed(held["elements"])
    kind: Any = None if level is None else level_bytes(level)[-1:]
    if title is None:
        made += (kind, NO)
    else:
        parts = fields(title, TITLE)
        made += (KINDS[fields(parts["level"], LEVEL)["kind"]], YES, title_bytes(parts))
    made.append(number(len(elements)))
    for element in elements:
        if type(element) is dict:
            ((name, part),) = element.items()
        else:
            name, part = Element.name(element), element
        kind, names, add = ELEMENTS[name]
        made.append(kind)
        add(fields(part, names), in_bytes, kept, made)


def title_bytes(title: Mapping[str, Any]) -> bytes:
    """A title."""
    name, url, is_primary = title.get("id"), title.get("url"), title["primary"]
    if is_primary is not True and is_primary is not False:
        raise Other
    identifier = NO if name is None and url is None else YES + text_if(name) + text_if(url)
    return level_bytes(title["level"]) + identifier + text(title["text"]) + (NO if is_primary else YES)


def level_bytes(level: Any) -> bytes:
    """A level: with the name of its kind, without a name, or with one of its own."""
    held = fields(level, LEVEL)
    if "name" not in held:
        return NO + KINDS[held["kind"]]
    name = held["name"]
    return (YES if name is None else b"\2" + text(name)) + KINDS[held["kind"]]


def add_message(message: Mapping[str, Any], in_bytes: bool, kept: List[Source], made: List[bytes]) -> None:
    """Adds a message."""
    made += (level_bytes(message["level"]), text(message["text"]))


def add_origin(origin: Mapping[str, Any], in_bytes: bool, kept: List[Source], made: List[bytes]) -> None:
    """Adds an origin."""
    made += (text(origin["path"]), number_if(origin.get("line")), number_if(origin.get("column")))


def add_padding(padding: Mapping[str, Any], in_bytes: bool, kept: List[Source], made: List[bytes]) -> None:
    """Adds an empty row, of which there is nothing to say."""


# ---- snippets


def add_cause(snippet: Mapping[str, Any], in_bytes: bool, kept: List[Source], made: List[bytes]) -> None:
    """Adds a source with marks."""
    marks = listed(snippet["annotations"])
    span = add_source(snippet, in_bytes, len(marks), kept, made)
    add = made.append
    for mark in marks:
        held = mark if type(mark) is dict else fields(mark, ANNOTATION)
        known = 3  # fields, beside those that may be left out
        start, end = span(held)
        if "label" in held and held["label"] is not None:
            known, label = 4, encode(held["label"])
            add(labelled(start, end, True, len(label)))
            add(label)
        else:
            known += "label" in held
            add(unlabelled(start, end, False))
        if "highlight_source" in held:
            known += 1
            made += (MARKS[held["kind"]], flag(held["highlight_source"], NO))
        else:
            add(UNLIT[held["kind"]])
        if known != len(held):
            raise Other
    add_looks(snippet, made)


def add_suggestion(snippet: Mapping[str, Any], in_bytes: bool, kept: List[Source], made: List[bytes]) -> None:
    """Adds a source with patches."""
    patches = listed(snippet["patches"])
    span = add_source(snippet, in_bytes, len(patches), kept, made)
    for patch in patches:
        held = fields(patch, PATCH)
        made += (two_numbers(*span(held)), text(held["text"]))
    add_looks(snippet, made)


def add_source(snippet: Mapping[str, Any], in_bytes: bool, count: int, kept: List[Source], made: List[bytes]) -> Span:
    """Adds a snippet up to its markers, of which there are so many, and returns how the span of each is written."""
    start, source = snippet.get("line_start"), snippet["source"]
    made += (text_if(snippet.get("path")), ONE if start is None else number(whole(start)))
    if type(source) is Source:
        made += (YES, number(number_among(kept, source)))
        source, size, starts = source.text, source.size, source.starts
    else:
        encoded = encode(source)
        size, starts = len(encoded), BEGINNING
        made += (NO, number(size), encoded)
    made.append(number(count))
    return spans_in(source, size, starts, snippet.get("unit"), in_bytes)


def number_among(kept: List[Source], source: Source) -> int:
    """The number of a source among those that a report names, which are these and, if it is no other, it."""
    for i, other in enumerate(kept):
        if other is source:
            return i
    kept.append(source)
    return len(kept) - 1


def add_looks(snippet: Mapping[str, Any], made: List[bytes]) -> None:
    """Adds what stands after a snippet's markers: whether its lines have numbers, and whether it is folded."""
    made += (flag(snippet.get("line_numbering"), YES), flag(snippet.get("fold"), YES))


Span = Callable[[Mapping[str, Any]], Tuple[int, int]]


def spans_in(source: str, size: int, starts: List[int], unit: Any, in_bytes: bool) -> Span:
    """How the spans of markers in a source are written, which has so many bytes, some of whose places are known."""
    if unit == "byte" or unit is None and in_bytes:
        return counted_span
    if unit is not None and unit != "char":
        raise Other
    return counted_in(len(source)) if len(source) == size else Characters(source, starts).span


def counted_span(marker: Mapping[str, Any]) -> Tuple[int, int]:
    """The span of a marker that counts bytes."""
    start, end = marker["start"], marker["end"]
    if type(start) is int and type(end) is int:
        return start, end
    raise Other


def counted_in(length: int) -> Span:
    """How the spans of markers are written that count the characters of a text of so many, which are a byte each. A place that the text
    hasn't is for JSON to tell."""

    def span(marker: Mapping[str, Any]) -> Tuple[int, int]:
        start, end = marker["start"], marker["end"]
        if type(start) is int and type(end) is int and start <= length and end <= length:
            return start, end
        raise Other

    return span


class Characters:
    """A text whose characters are several bytes each, how many stand before the last one that was asked for, and before each STEP."""

    def __init__(self, source: str, starts: List[int]):
        self.source, self.starts, self.last = source, starts, (0, 0)

    def span(self, marker: Mapping[str, Any]) -> Tuple[int, int]:
        """The span of a marker that counts characters. A place that the text hasn't is for JSON to tell."""
        start, end = whole(marker["start"]), whole(marker["end"])
        if 0 <= start <= len(self.source) and 0 <= end <= len(self.source):
            return self.byte(start), self.byte(end)
        raise Other

    def byte(self, place: int) -> int:
        """How many bytes stand before a character: counted from the last one or from a known place, whichever is nearer before it."""
        step = min(place // STEP, len(self.starts) - 1)
        known = (step * STEP, self.starts[step])
        at, before = self.last if known[0] <= self.last[0] <= place else known
        self.last = (place, before + len(self.source[at:place].encode()))
        return self.last[1]


ELEMENTS: Dict[str, Tuple[bytes, FrozenSet[str], Callable[[Mapping[str, Any], bool, List[Source], List[bytes]], None]]] = {
    "message": (b"\0", MESSAGE, add_message),
    "cause": (b"\1", CAUSE, add_cause),
    "suggestion": (b"\2", SUGGESTION, add_suggestion),
    "origin": (b"\3", ORIGIN, add_origin),
    "padding": (b"\4", NOTHING, add_padding),
}


# ---- settings


FLAGS = ("anonymized_origin", "anonymized_snippet", "unicode", "hyperlink", "short_message", "no_graphics", "show_line_feeds", "wrap")
FLAGS += ("mask_controls", "label_lines")
NUMBERS = {"term_width": 140, "context_before": 0, "context_after": 0}


def settings_of(given: Mapping[str, Any]) -> bytes:
    """The version and the settings, each by its default where it is left out."""
    if not given.keys() <= SETTINGS:
        raise Other
    origin, snippet, decor, hyperlink, short, words, feeds, wrap, *switches = (flag(given.get(name), NO) for name in FLAGS)
    numbers = ((given.get(name), default) for name, default in NUMBERS.items())
    width, before, after = (number(default if value is None else whole(value)) for value, default in numbers)
    later = [bytes((kind,)) + ONE for kind, switch in enumerate(switches) if switch != NO]
    return b"".join((VERSION, origin, snippet, width, decor, hyperlink, short, words, feeds, before, after, wrap, number(len(later)), *later))


SETTINGS = frozenset(FLAGS) | NUMBERS.keys()
DEFAULT_SETTINGS = settings_of({})
