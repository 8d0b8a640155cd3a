"""Writes cases as the bytes of docs/BINDINGS.md, and reads the answers: for the programs in C that are tried on them.

A case is one as docs/REPORTS.md has it, and a right one: nothing is asked here. Its spans are in bytes.
"""

VERSION = b"\3"
KINDS = ("error", "warning", "info", "note", "help")
MARKS = ("primary", "context", "visible")
PARTS = ("error", "warning", "info", "note", "help", "line_num", "emphasis", "none", "context", "addition", "removal")
EFFECTS = ("BOLD", "DIMMED", "ITALIC", "UNDERLINE", "BLINK", "INVERT", "HIDDEN", "STRIKETHROUGH")
COLORS = ("Black", "Red", "Green", "Yellow", "Blue", "Magenta", "Cyan", "White")
COLORS += tuple("Bright" + name for name in COLORS)
ELEMENTS = ("message", "cause", "suggestion", "origin", "padding")
# The foreground of each part of the default sheet, and whether it is bold.
DEFAULTS = {"error": ("BrightRed", True), "warning": ("Yellow", True), "info": ("BrightBlue", True), "note": ("BrightGreen", True)}
DEFAULTS |= {"help": ("BrightCyan", True), "line_num": ("BrightBlue", True), "emphasis": (None, True), "context": ("BrightBlue", True)}
DEFAULTS |= {"addition": ("BrightGreen", False), "removal": ("BrightRed", False)}
SHEETS = {"plain": {}, "default": {part: {"fg": fg, "effects": ["BOLD"] if bold else []} for part, (fg, bold) in DEFAULTS.items()}}
# The refusals, each with the numbers that it names.
OF_SPAN = ("group", "element", "marker")
REFUSALS = [("NoGroup", ()), ("NoTitle", ()), ("SpanReversed", OF_SPAN), ("SpanPastEnd", OF_SPAN), ("SpanOffBoundary", OF_SPAN)]
REFUSALS += [("PatchesOverlap", ("group", "element", "first", "second")), ("LineNumberTooLarge", ("group", "element"))]


def bytes_of(case):
    """The bytes of a case."""
    sheets = ["plain"] if case.get("sheets") is None else case["sheets"]
    return VERSION + settings(case.get("settings") or {}) + many(sheets, sheet) + many(case["groups"], group)


def number(value):
    return value.to_bytes(8, "little")


def flag(value):
    return bytes([bool(value)])


def text(value):
    encoded = value.encode()
    return number(len(encoded)) + encoded


def option(value, write):
    return b"\0" if value is None else b"\1" + write(value)


def many(values, write):
    return number(len(values)) + b"".join(map(write, values))


def kind(value, kinds):
    return bytes([kinds.index(value)])


def settings(given):
    numbers = {name: number(given.get(name) or 0) for name in ("context_before", "context_after")}
    flags = {name: flag(given.get(name)) for name in ("anonymized_origin", "anonymized_snippet", "unicode", "hyperlink", "short_message")}
    flags |= {name: flag(given.get(name)) for name in ("no_graphics", "show_line_feeds", "wrap")}
    width = number(140 if given.get("term_width") is None else given["term_width"])
    made = flags["anonymized_origin"] + flags["anonymized_snippet"] + width + flags["unicode"] + flags["hyperlink"]
    made += flags["short_message"] + flags["no_graphics"] + flags["show_line_feeds"]
    later = [(kind, 1) for kind, name in enumerate(("mask_controls", "label_lines")) if given.get(name)]
    return made + numbers["context_before"] + numbers["context_after"] + flags["wrap"] + many(later, pair)


def pair(setting):
    return bytes([setting[0]]) + number(setting[1])


def sheet(given):
    styles = SHEETS[given] if isinstance(given, str) else given
    return b"".join(style(styles.get(part) or {}) for part in PARTS)


def style(given):
    effects = given.get("effects") or []
    return option(given.get("fg"), color) + option(given.get("bg"), color) + b"".join(flag(it in effects) for it in EFFECTS)


def color(given):
    if isinstance(given, str):
        return b"\0" + kind(given, COLORS)
    return bytes([1, given["ansi256"]]) if "ansi256" in given else bytes([2, *given["rgb"]])


def group(given):
    title_of = given["title"]
    level_of = given["level"] if title_of is None else title_of["level"]
    return kind(level_of["kind"], KINDS) + option(title_of, title) + many(given["elements"], element)


def title(given):
    is_named = given.get("id") is not None or given.get("url") is not None
    id_of = flag(is_named) + (option(given.get("id"), text) + option(given.get("url"), text) if is_named else b"")
    return level(given["level"]) + id_of + text(given["text"]) + flag(not given["primary"])


def level(given):
    if "name" not in given:
        return b"\0" + kind(given["kind"], KINDS)
    name = b"\1" if given["name"] is None else b"\2" + text(given["name"])
    return name + kind(given["kind"], KINDS)


def element(given):
    ((name, body),) = given.items()
    return kind(name, ELEMENTS) + {"message": message, "cause": cause, "suggestion": suggestion, "origin": origin, "padding": lambda _: b""}[name](body)


def message(given):
    return level(given["level"]) + text(given["text"])


def cause(given):
    return snippet(given, given["annotations"], annotation)


def suggestion(given):
    return snippet(given, given["patches"], patch)


def snippet(given, markers, write):
    start = number(1 if given.get("line_start") is None else given["line_start"])
    made = option(given.get("path"), text) + start + b"\0" + text(given["source"]) + many(markers, write)
    return made + flag(given.get("line_numbering") is not False) + flag(given.get("fold") is not False)


def span(given):
    return number(given["start"]) + number(given["end"])


def annotation(given):
    return span(given) + option(given.get("label"), text) + kind(given["kind"], MARKS) + flag(given.get("highlight_source"))


def patch(given):
    return span(given) + text(given["text"])


def origin(given):
    return text(given["path"]) + option(given.get("line"), number) + option(given.get("column"), number)


def answer_of(case, answer):
    """What bytes answer, as `replay` answers in JSON."""
    rest = Rest(answer)
    answered = rest.byte()
    if answered == 0:
        return {"id": case["id"], "ok": [rest.text() for _ in range(rest.number())]}
    if answered != 1:
        raise ValueError(f"{case['id']} is answered by {answer[:80]}")
    name, numbers = REFUSALS[rest.byte()]
    named = {it: rest.number() for it in numbers}
    return {"id": case["id"], "refused": name, "text": rest.text(), **named}


class Rest:
    """What is left of bytes, read from left to right."""

    def __init__(self, answer):
        self.answer = answer
        self.at = 0

    def take(self, count):
        self.at += count
        return self.answer[self.at - count : self.at]

    def byte(self):
        return self.take(1)[0]

    def number(self):
        return int.from_bytes(self.take(8), "little")

    def text(self):
        return self.take(self.number()).decode()
