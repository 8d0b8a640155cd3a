"""A report is drawn the same whether it is handed over as bytes or as JSON, and told the same where it isn't one."""

import copy
import pickle
import random
import unittest

import yazgult
from yazgult import Annotation, Cause, Group, Level, Message, Patch, Report, Snippet, Title
from yazgult.as_bytes import bytes_of
from yazgult.drawing import drawn

SOURCE = "let é = 😀;\nlet x = 1;\n"
LEVEL = {"kind": "error"}
MARKS = [{"kind": "primary", "start": 8, "end": 9, "label": "<here>"}, {"kind": "context", "start": 4, "end": 5, "highlight_source": True}]
CAUSE = {"source": SOURCE, "path": "a.rs", "line_start": 7, "fold": False, "annotations": MARKS}
PATCHES = [{"start": 0, "end": 3, "text": "é"}, {"start": 15, "end": 15, "text": ""}]
SUGGESTION = {"source": SOURCE, "line_numbering": None, "unit": "char", "patches": PATCHES}
TITLE = {"level": {"kind": "warning", "name": "own"}, "text": "té", "primary": True, "id": "E1", "url": "https://a.example"}
MESSAGE = {"level": {"kind": "note", "name": None}, "text": "more"}
ORIGIN = {"path": "b.rs", "line": 3, "column": 4}
ELEMENTS = [{"cause": CAUSE}, {"message": MESSAGE}, {"suggestion": SUGGESTION}, {"origin": ORIGIN}, {"padding": {}}]
UNTITLED = {"title": None, "level": {"kind": "error", "name": None}, "elements": [{"cause": {"source": "a", "annotations": []}}]}
REPORT = [{"title": TITLE, "level": LEVEL, "elements": ELEMENTS}, UNTITLED]
SETTINGS = {"term_width": 40, "unicode": True, "context_before": 1, "context_after": None, "mask_controls": True, "wrap": False}
# Values that stand where others should.
ODD = [None, True, False, 0, 1, -1, 2**64, 10**30, 1.0, "", "x", "\ud800", b"x", [], [1], (), {}, {"kind": "help"}, "byte", "utf16", object(), 14, 99]


def outcome(draw):
    """What a call gives, or what it raises."""
    try:
        return draw()
    except yazgult.Error as error:
        return type(error), str(error), vars(error)


def by_json(report, sheets, spans, settings, sources=None):
    """What JSON alone gives."""
    return outcome(lambda: drawn({"sheets": sheets}, report, spans, sources, settings))


def first(outcome):
    """The first text of an outcome that has some, as `render` gives it."""
    return outcome[0] if isinstance(outcome, list) else outcome


def places(value, at=()):
    """All places of a report, by their keys."""
    yield at
    items = value.items() if isinstance(value, dict) else enumerate(value) if isinstance(value, list) else ()
    for key, member in items:
        yield from places(member, (*at, key))


def changed(report, rng):
    """A report in which something is another value, is left out or is one more field."""
    report = copy.deepcopy(report)
    *above, last = rng.choice([it for it in places(report) if it])
    held = report
    for key in above:
        held = held[key]
    how = rng.randrange(4)
    if how == 0:
        del held[last]
    elif how == 1 and isinstance(held, dict):
        held["more"] = rng.choice(ODD)
    else:
        held[last] = rng.choice(ODD)
    return report


class SameAsJson(unittest.TestCase):
    def assert_same(self, report, sheets=("plain",), spans="characters", **settings):
        drawn_so = outcome(lambda: yazgult.render_sheets(report, sheets, spans=spans, **settings))
        self.assertEqual(drawn_so, by_json(report, sheets, spans, settings), f"{report} {settings}")

    def test_what_bytes_say_is_drawn_alike(self):
        for spans in ("characters", "bytes"):
            self.assertIsNotNone(bytes_of(REPORT, ["plain", "default"], spans, None, SETTINGS))
            self.assert_same(REPORT, ["plain", "default"], spans, **SETTINGS)

    def test_what_is_changed_anywhere_is_drawn_or_told_alike(self):
        rng = random.Random(7)
        written = 0
        for _ in range(3000):
            report = changed(REPORT, rng)
            self.assert_same(report, spans=rng.choice(["characters", "bytes"]))
            written += bytes_of(report, ["plain"], "characters", None, {}) is not None
        self.assertGreater(written, 300)

    def test_settings_and_sheets_that_are_none_are_told_alike(self):
        for name in (*SETTINGS, "other"):
            for value in ODD:
                self.assert_same(REPORT, **{name: value})
        for value in ODD:
            wanted = first(by_json(REPORT, ["plain"], "characters", {}, value))
            self.assertEqual(outcome(lambda value=value: yazgult.render(REPORT, sources=value)), wanted)
            report = Report(REPORT, value)
            self.assertEqual(outcome(lambda report=report: yazgult.render(report)), first(by_json(report, ["plain"], "characters", {})))
        for sheets in ([], ["none"], "plain", ["plain", {"error": {"fg": "Red"}}], None, [1]):
            self.assert_same(REPORT, sheets)

    def test_a_kept_source_is_drawn_as_its_text(self):
        text = "let é = 😀;\n" * 2000
        kept = yazgult.Source(text)
        rng = random.Random(3)
        for spans in ("characters", "bytes"):
            for _ in range(100):
                starts = sorted(rng.sample(range(len(text.encode()) + 3), 4))
                marks = [{"kind": "primary", "start": starts[0], "end": starts[1]}, {"kind": "context", "start": starts[2], "end": starts[3]}]
                rng.shuffle(marks)
                by_text, by_number = ([{"title": TITLE, "elements": [{"cause": {"source": it, "annotations": marks}}] * 2}] for it in (text, kept))
                draw = (lambda report=it: yazgult.render(report, spans=spans) for it in (by_text, by_number))
                self.assertEqual(*map(outcome, draw))
        html = (outcome(lambda report=it: yazgult.render_html(report, spans="bytes")) for it in (by_text, by_number))
        self.assertEqual(*html)
        copies = (copy.copy(kept), copy.deepcopy(kept), pickle.loads(pickle.dumps(kept)))
        self.assertEqual([it.text for it in copies], [text] * 3)
        for wrong in (None, 5, b"x", "\ud800"):
            with self.assertRaises(yazgult.NotDrawable):
                yazgult.Source(wrong)

    def test_classes_are_drawn_alike(self):
        snippet = Snippet(SOURCE, "a.rs").mark(8, 9, "here").mark((1, 5), (1, 6))
        parts = [snippet, Cause("ab", [Annotation("primary", 0, 2)]), Snippet(SOURCE).patch(0, 3, "x"), Message("note", "more")]
        for part in parts:
            self.assert_same([Group(Title(Level("error", hidden=True), "t"), [part])])
        self.assert_same([Group(None, [Snippet("a", patches=[Patch(0, 1, "b")]).mark(0, 1)], "help")])


if __name__ == "__main__":
    unittest.main()
