"""What a report is made of, as classes: each has the fields that docs/REPORTS.md has under its name."""

from __future__ import annotations

import sys
from dataclasses import dataclass, field
from typing import Any, Dict, List, Mapping, Optional, Sequence, TextIO, Tuple, Union

from .errors import NotDrawable
from .source import Source

# A place in a source: how many characters (or bytes) stand before it, or its line and its column, both from 1.
Place = Union[int, Tuple[int, int]]
Fields = Dict[str, Any]


class Part:
    """A part of a report."""

    def as_json(self) -> Fields:
        """The fields of the part, by the names that docs/REPORTS.md has."""
        return vars(self)


def added(held: Any, name: str, member: Any) -> Any:
    """A field that is a list with one member more: the list itself, if it is one that can grow."""
    if isinstance(held, list):
        held.append(member)
        return held
    if isinstance(held, tuple):
        return [*held, member]
    raise NotDrawable(f"{name}: expected a list, found a value of type {type(held).__name__}")


class Element(Part):
    """A part that stands in a group below its title."""

    def name(self) -> str:
        """The field that an element of this kind has in docs/REPORTS.md."""
        return type(self).__name__.lower()


@dataclass
class Level(Part):
    """A kind, "error", "warning", "info", "note" or "help", and the name that is shown for it, where it is another or none."""

    kind: str
    name: Optional[str] = None
    hidden: bool = False

    def as_json(self) -> Fields:
        """The level's fields: `name` is left out where the kind's own name is shown."""
        if self.hidden:
            return {"kind": self.kind, "name": None}
        return {"kind": self.kind} if self.name is None else {"kind": self.kind, "name": self.name}


def of_level(level: Any) -> Any:
    """A level that is named by its kind alone, or one that is whole."""
    return {"kind": level} if isinstance(level, str) else level


@dataclass
class Title(Part):
    """The title of a group; the text of one that isn't primary is trusted."""

    level: Union[Level, str]
    text: str
    primary: bool = True
    id: Optional[str] = None
    url: Optional[str] = None

    def as_json(self) -> Fields:
        """The title's fields."""
        return {**vars(self), "level": of_level(self.level)}


def with_span(fields: Fields) -> Fields:
    """The fields of a marker, its places named as docs/REPORTS.md does: `from` and `to` where they are lines and columns."""
    told = dict(fields)
    for offset, name in (("start", "from"), ("end", "to")):
        place = told.get(offset)
        if isinstance(place, tuple) and len(place) == 2:
            told[name] = {"line": place[0], "column": place[1]}
            del told[offset]
    return told


@dataclass
class Annotation(Part):
    """A mark in a source: "primary", "context" or "visible". `end` is the place after it."""

    kind: str
    start: Place
    end: Place
    label: Optional[str] = None
    highlight_source: bool = False

    def as_json(self) -> Fields:
        """The annotation's fields."""
        return with_span(vars(self))


@dataclass
class Patch(Part):
    """A text that is to stand in the place of a part of a source."""

    start: Place
    end: Place
    text: str

    def as_json(self) -> Fields:
        """The patch's fields."""
        return with_span(vars(self))


@dataclass
class Message(Element):
    """A message below a title, whose text is trusted."""

    level: Union[Level, str]
    text: str

    def as_json(self) -> Fields:
        """The message's fields."""
        return {"level": of_level(self.level), "text": self.text}


@dataclass
class Snippet(Element):
    """A source with marks or with patches. `source` is its text, or one that is kept, or the number of one of the report's `sources`; `unit`
    says what `start` and `end` count in it, where that is something else than in the rest of the report: "byte", "char" or "utf16"."""

    source: Union[str, int, Source]
    path: Optional[str] = None
    annotations: List[Annotation] = field(default_factory=list)
    patches: List[Patch] = field(default_factory=list)
    line_start: int = 1
    line_numbering: bool = True
    fold: bool = True
    unit: Optional[str] = None

    def mark(self, start: Place, end: Place, label: Optional[str] = None, kind: str = "primary", highlight_source: bool = False) -> Snippet:
        """Adds a mark from one place to the one after it, and returns the snippet."""
        self.annotations = added(self.annotations, "annotations", Annotation(kind, start, end, label, highlight_source))
        return self

    def patch(self, start: Place, end: Place, text: str) -> Snippet:
        """Adds a text in the place of what stands there, and returns the snippet. A snippet has marks or patches, and not both."""
        self.patches = added(self.patches, "patches", Patch(start, end, text))
        return self

    def name(self) -> str:
        """A snippet with patches is a suggestion."""
        return "suggestion" if self.patches else "cause"

    def as_json(self) -> Fields:
        """The snippet's fields. Where it has both marks and patches so have these, and the report isn't drawn."""
        left_out = "patches" if not self.patches else "" if self.annotations else "annotations"
        return {name: it for name, it in vars(self).items() if name != left_out}


@dataclass
class Cause(Element):
    """A source with marks."""

    source: Union[str, int, Source]
    annotations: List[Annotation] = field(default_factory=list)
    path: Optional[str] = None
    line_start: int = 1
    line_numbering: bool = True
    fold: bool = True
    unit: Optional[str] = None


@dataclass
class Suggestion(Element):
    """A source with patches."""

    source: Union[str, int, Source]
    patches: List[Patch] = field(default_factory=list)
    path: Optional[str] = None
    line_start: int = 1
    line_numbering: bool = True
    fold: bool = True
    unit: Optional[str] = None


@dataclass
class Origin(Element):
    """A file, and a place in it, whose source isn't shown."""

    path: str
    line: Optional[int] = None
    column: Optional[int] = None


@dataclass
class Padding(Element):
    """An empty row."""


@dataclass
class Group(Part):
    """A title, and what stands below it. A group without a title has a level."""

    title: Optional[Title]
    elements: List[Union[Element, Mapping[str, Any]]] = field(default_factory=list)
    level: Optional[Union[Level, str]] = None

    def snippet(
        self,
        source: Union[str, int, Source],
        path: Optional[str] = None,
        *,
        line_start: int = 1,
        line_numbering: bool = True,
        fold: bool = True,
        unit: Optional[str] = None,
    ) -> Snippet:
        """Adds a snippet, and returns it, so that it can be marked."""
        snippet = Snippet(source, path, line_start=line_start, line_numbering=line_numbering, fold=fold, unit=unit)
        self.elements = added(self.elements, "elements", snippet)
        return snippet

    def message(self, level: Union[Level, str], text: str) -> Group:
        """Adds a message, and returns the group."""
        self.elements = added(self.elements, "elements", Message(level, text))
        return self

    def origin(self, path: str, line: Optional[int] = None, column: Optional[int] = None) -> Group:
        """Adds an origin, and returns the group."""
        self.elements = added(self.elements, "elements", Origin(path, line, column))
        return self

    def as_json(self) -> Fields:
        """The group's fields."""
        return {"title": self.title, "level": of_level(self.level), "elements": self.elements}


@dataclass
class Report:
    """Groups, and the sources that their snippets name by numbers."""

    groups: List[Union[Group, Mapping[str, Any]]] = field(default_factory=list)
    sources: Sequence[str] = ()

    def group(self, level: Union[Level, str], text: str, primary: bool = True, id: Optional[str] = None, url: Optional[str] = None) -> Group:
        """Adds a group with this title, and returns it."""
        group = Group(Title(level, text, primary, id, url))
        self.groups = added(self.groups, "groups", group)
        return group

    # What draws takes a report, so it is imported where it is used.

    def print_report(self, file: Optional[TextIO] = None, **settings: Any) -> None:
        """Prints the report as `yazgult.print_report` does, on standard error where no file is given."""
        from .terminal import print_report

        print_report(self, sys.stderr if file is None else file, **settings)

    def _repr_html_(self) -> str:
        """The report for a notebook, which shows it in colours, and reads it aloud in words."""
        from .drawing import render_html_page
        from .stylesheet import HTML_PAGE_STYLESHEET, HTML_STYLESHEET

        return f"<style>{HTML_STYLESHEET}{HTML_PAGE_STYLESHEET}</style><article>{render_html_page(self)}</article>"


Groups = Sequence[Union[Group, Mapping[str, Any]]]
