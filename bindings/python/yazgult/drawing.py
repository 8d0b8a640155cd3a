"""Draws reports: each is handed to the library as bytes, or else as a line of JSON, a case as docs/REPORTS.md has it."""

from __future__ import annotations

import json
from typing import TYPE_CHECKING, Any, Dict, List, Mapping, Optional, Sequence, Type, TypedDict, Union

from .as_bytes import bytes_of, texts_of
from .errors import REFUSALS, Error, NoTitle, NotDrawable, OutOfMemory, Refused
from .faults import fault_of
from .library import call
from .report import Element, Group, Groups, Part, Report
from .source import Source, listed

if TYPE_CHECKING:
    from typing_extensions import Unpack

# A sheet: "plain", "default", or a style for some of the eleven parts.
Sheet = Union[str, Mapping[str, Any]]
# What `spans` names, and the unit of docs/REPORTS.md: that of bytes is left out there, and columns count characters then.
UNITS: Dict[str, Optional[str]] = {"characters": "char", "bytes": None}


class Settings(TypedDict, total=False):
    """How a report is drawn, by the names that docs/REPORTS.md has."""

    no_graphics: bool
    short_message: bool
    term_width: int
    unicode: bool
    anonymized_snippet: bool
    anonymized_origin: bool
    hyperlink: bool
    show_line_feeds: bool
    context_before: int
    context_after: int
    wrap: bool
    mask_controls: bool
    label_lines: bool


def render(
    report: Union[Report, Groups],
    sheet: Sheet = "plain",
    *,
    spans: str = "characters",
    sources: Optional[Sequence[str]] = None,
    **settings: Unpack[Settings],
) -> str:
    """The text of a report under a sheet: "plain", "default", or a dict of styles.

    A report is a `Report` or a list of groups: `Group`s, or dicts with the fields of docs/REPORTS.md. `spans` says what `start` and `end`
    count, "characters" or "bytes", in each snippet that has no `unit`; `sources` are texts that snippets name by their numbers.

    Settings are `no_graphics`, `short_message`, `term_width`, `unicode`, `anonymized_snippet`, `anonymized_origin`, `hyperlink`,
    `show_line_feeds`, `context_before`, `context_after`, `wrap`, `mask_controls` and `label_lines`, as that page has
    them.
    """
    return texts_of_report(report, (sheet,), spans, sources, settings)[0]


def render_sheets(
    report: Union[Report, Groups],
    sheets: Sequence[Sheet],
    *,
    spans: str = "characters",
    sources: Optional[Sequence[str]] = None,
    **settings: Unpack[Settings],
) -> List[str]:
    """The texts of a report, one under each of these sheets, in order. The rest is as of `render`."""
    return texts_of_report(report, sheets, spans, sources, settings)


def render_html(
    report: Union[Report, Groups],
    *,
    spans: str = "characters",
    sources: Optional[Sequence[str]] = None,
    **settings: Unpack[Settings],
) -> str:
    """A report's graphic form as HTML, for `<pre>`; `HTML_STYLESHEET` has its colours. The rest is as of `render`."""
    return drawn({"html": True}, report, spans, sources, settings)[0]


def render_html_page(
    report: Union[Report, Groups],
    *,
    spans: str = "characters",
    sources: Optional[Sequence[str]] = None,
    **settings: Unpack[Settings],
) -> str:
    """A report as HTML, for `<article>`: a heading, the drawing, and its text form for who listens, which HTML_PAGE_STYLESHEET hides from
    sight. The rest is as of `render`."""
    return drawn({"html_page": True}, report, spans, sources, settings)[0]


def render_markdown(
    report: Union[Report, Groups],
    *,
    spans: str = "characters",
    sources: Optional[Sequence[str]] = None,
    **settings: Unpack[Settings],
) -> str:
    """A report in Markdown: its first title in bold, and its plain text between fences. The rest is as of `render`."""
    return drawn({"markdown": True}, report, spans, sources, settings)[0]


def answer_json(line: str) -> str:
    """What `replay --keep-going` answers to a line of JSON, a case as docs/REPORTS.md has it: a line of JSON too."""
    if not isinstance(line, str):
        raise NotDrawable(f"the line: expected a text, found a value of type {type(line).__name__}")
    try:
        return call_json(line.encode()).decode()
    except UnicodeEncodeError:
        raise NotDrawable("the line: half of a surrogate pair stands in it") from None


def version() -> str:
    """The version of the library."""
    return call("yazgult_version").decode()


def texts_of_report(report: Any, sheets: Any, spans: Any, sources: Any, settings: Any) -> List[str]:
    """The texts of a report under these sheets: as bytes, or where these don't say it or give no text, as JSON."""
    given = bytes_of(report, sheets, spans, sources, settings)
    texts = None if given is None else texts_of(call_bytes(*given))
    return drawn({"sheets": sheets}, report, spans, sources, settings) if texts is None else texts


def call_bytes(given: bytes, kept: List[Source]) -> bytes:
    """What the library answers to a report as bytes, which names these sources by their numbers."""
    if kept:
        return call("yazgult_draw_with", given, len(given), kept=listed(kept))
    return call("yazgult_draw", given, len(given))


def call_json(line: bytes) -> bytes:
    """What it answers to a line of JSON."""
    return call("yazgult_draw_json", line, len(line))


def drawn(case: Dict[str, Any], report: Any, spans: Any, sources: Any, settings: Any) -> List[str]:
    """The texts of a report, which completes this case."""
    if not isinstance(spans, str) or spans not in UNITS:
        raise NotDrawable('spans: expected "characters" or "bytes"')
    case.update(id="", settings=settings, sources=sources, groups=report)
    try:
        answer = json.loads(call_json(line_of(case, UNITS[spans])))
    except MemoryError:
        raise OutOfMemory("there is no memory to hand the report over") from None
    if "ok" in answer:
        texts: List[str] = answer["ok"]
        return texts
    raise refusal_of(answer, case)


# ---- the report as JSON has it


def line_of(case: Dict[str, Any], unit: Optional[str]) -> bytes:
    """A case as a line of JSON, with this unit for each snippet that has none."""
    try:
        report = case["groups"]
        if isinstance(report, Report):
            case.update(groups=report.groups, sources=report.sources if case["sources"] is None else case["sources"])
        return encode({**case, "groups": in_unit(case["groups"], unit)}).encode()
    except MemoryError:
        raise
    except Exception as error:
        raise not_said(case, type(error).__name__) from None


def in_unit(groups: Any, unit: Optional[str]) -> Any:
    """The groups, with the names of elements that are classes, and with a unit for each snippet that has none. What has another form
    than a report has stays as it is, for the library to tell."""
    return [group_in_unit(it, unit) for it in groups] if isinstance(groups, (list, tuple)) else groups


def group_in_unit(group: Any, unit: Optional[str]) -> Any:
    """A group likewise."""
    if isinstance(group, Group):
        group = group.as_json()
    elements = group.get("elements") if isinstance(group, dict) else None
    if not isinstance(elements, (list, tuple)):
        return group
    return {**group, "elements": [element_in_unit(it, unit) for it in elements]}


def element_in_unit(element: Any, unit: Optional[str]) -> Any:
    """An element likewise."""
    if isinstance(element, Element):
        element = {element.name(): element}
    if unit is None or not isinstance(element, dict):
        return element
    for name in ("cause", "suggestion"):
        snippet = element.get(name)
        if isinstance(snippet, Part):
            snippet = snippet.as_json()
        if isinstance(snippet, dict) and snippet.get("unit") is None:
            element = {**element, name: {**snippet, "unit": unit}}
    return element


def said(value: Any) -> Any:
    """What JSON has for a value that isn't JSON's own."""
    if isinstance(value, Part):
        return value.as_json()
    if isinstance(value, Source):
        return value.text
    raise TypeError


encode = json.JSONEncoder(default=said, allow_nan=False, ensure_ascii=False, separators=(",", ":")).encode


# ---- why there is no text


def not_said(case: Dict[str, Any], why: str) -> Error:
    """What is told of a case that isn't JSON, for this reason where no place in it is one."""
    return NotDrawable(fault_of(case) or f"groups: they can't be read: {why}")


def refusal_of(answer: Dict[str, Any], case: Dict[str, Any]) -> Error:
    """What an answer without texts says."""
    if "refused" in answer:
        words, kind = answer.pop("text"), REFUSALS.get(answer.pop("refused"), Refused)
        del answer["id"]
        return kind(path_of(kind, answer, case), words, **answer)
    words = answer["error"]
    if words == "out of memory":
        return OutOfMemory("there is no memory to draw the report")
    # Where the line is told by its columns it isn't JSON for the library, which reads none that is nested deep.
    return not_said(case, words) if words.startswith("column ") else NotDrawable(words)


def path_of(kind: Type[Refused], numbers: Dict[str, int], case: Dict[str, Any]) -> str:
    """The path of the field for which a report is refused, as `groups[0].elements[1].cause.annotations[0]`."""
    if "element" not in numbers:
        return "groups[0].title" if kind is NoTitle else "groups"
    group, element = numbers["group"], numbers["element"]
    found = in_unit(case["groups"], None)[group]["elements"][element]
    name, markers = ("suggestion", "patches") if found.get("suggestion") is not None else ("cause", "annotations")
    marker = numbers.get("marker", numbers.get("second"))
    field = "line_start" if marker is None else f"{markers}[{marker}]"
    return f"groups[{group}].elements[{element}].{name}.{field}"
