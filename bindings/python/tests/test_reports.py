"""Reports that are drawn: all that docs/REPORTS.md has, as dicts and as classes."""

import json
import threading
import unittest
from html.parser import HTMLParser

import yazgult
from yazgult import Annotation, Cause, Group, Level, Message, Origin, Padding, Patch, Report, Snippet, Suggestion, Title

SOURCE = "let é = 1;\n"
DRAWN = """error: never read
 --> a.rs:1:5
  |
1 | let é = 1;
  |     ^ here"""


def report(mark, **snippet):
    """A report that marks a part of the source."""
    title = {"level": {"kind": "error"}, "text": "never read", "primary": True}
    cause = {"source": SOURCE, "path": "a.rs", "annotations": [{"kind": "primary", "label": "here", **mark}], **snippet}
    return [{"title": title, "elements": [{"cause": cause}]}]


class Text(HTMLParser):
    """The text of a piece of HTML, without its stylesheet."""

    def __init__(self, html):
        super().__init__()
        self.text, self.is_style = "", False
        self.feed(html)
        self.close()

    def handle_starttag(self, tag, attributes):
        self.is_style = tag == "style"

    def handle_endtag(self, tag):
        self.is_style = False

    def handle_data(self, data):
        self.text += "" if self.is_style else data


class Dicts(unittest.TestCase):
    def test_spans_count_characters_or_bytes(self):
        self.assertEqual(yazgult.render(report({"start": 4, "end": 5})), DRAWN)
        self.assertEqual(yazgult.render(report({"start": 4, "end": 6}), spans="bytes"), DRAWN)
        with self.assertRaises(yazgult.SpanOffBoundary):
            yazgult.render(report({"start": 4, "end": 5}), spans="bytes")

    def test_a_snippet_has_its_own_unit(self):
        for spans in ("characters", "bytes"):
            self.assertEqual(yazgult.render(report({"start": 4, "end": 6}, unit="byte"), spans=spans), DRAWN)
            self.assertEqual(yazgult.render(report({"start": 4, "end": 5}, unit="char"), spans=spans), DRAWN)
        # A character beyond U+FFFF is two units of UTF-16, one character and four bytes.
        wide = {"source": "\U0001f600é\n", "path": None}
        drawn = "error: never read\n  |\n1 | \U0001f600é\n  |   ^ here"
        for unit, start, end in (("utf16", 2, 3), ("char", 1, 2), ("byte", 4, 6)):
            self.assertEqual(yazgult.render(report({"start": start, "end": end}, unit=unit, **wide)), drawn)

    def test_places_are_lines_and_columns(self):
        places = {"from": {"line": 1, "column": 5}, "to": {"line": 1, "column": 6}}
        for spans in ("characters", "bytes"):
            self.assertEqual(yazgult.render(report(places), spans=spans), DRAWN)

    def test_a_source_is_named_once(self):
        groups = report({"start": 4, "end": 5}, source=0)
        self.assertEqual(yazgult.render(groups, sources=[SOURCE]), DRAWN)
        self.assertEqual(yazgult.render(Report(groups, [SOURCE])), DRAWN)
        with self.assertRaisesRegex(yazgult.NotDrawable, r"groups\[0\]\.elements\[0\]\.cause\.source"):
            yazgult.render(groups)

    def test_html_has_the_text_of_the_graphic_form(self):
        html = yazgult.render_html(report({"start": 4, "end": 5, "label": "<here>"}))
        self.assertEqual(Text(html).text, DRAWN.replace("here", "<here>"))
        self.assertIn('<span class="snippet-error">', html)

    def test_an_article_has_a_heading_a_drawing_and_words(self):
        groups = report({"start": 4, "end": 5, "label": "<here>"})
        drawing, words = yazgult.render_html(groups), yazgult.render(groups, no_graphics=True)
        self.assertEqual(
            yazgult.render_html_page(groups),
            f'<h2>error: never read</h2>\n<pre aria-hidden="true">\n{drawing}</pre>\n'
            f'<pre class="snippet-text">\n{words.replace("<", "&lt;").replace(">", "&gt;")}</pre>',
        )

    def test_markdown_has_the_plain_text_between_fences(self):
        text = yazgult.render_markdown(report({"start": 4, "end": 5}))
        self.assertEqual(text, f"**error\\: never read**\n\n```\n{DRAWN}\n```")
        self.assertEqual(yazgult.render_markdown(report({"start": 4, "end": 5}), short_message=True), "```\na.rs:1:5: error: never read: here\n```")

    def test_sheets_and_settings(self):
        groups = report({"start": 4, "end": 5})
        plain, coloured = yazgult.render_sheets(groups, ["plain", "default"])
        self.assertEqual((plain, "\x1b[" in coloured), (DRAWN, True))
        self.assertEqual(yazgult.render(groups, short_message=True), "a.rs:1:5: error: never read: here")

    def test_what_may_be_left_out_may_be_none(self):
        groups = report({"start": 4, "end": 5, "highlight_source": None}, unit=None, fold=None, line_start=None)
        self.assertEqual(yazgult.render(groups, term_width=None), DRAWN)

    def test_answer_json_is_what_replay_answers(self):
        line = json.dumps({"id": "a", "groups": report({"start": 4, "end": 6})})
        self.assertEqual(json.loads(yazgult.answer_json(line)), {"id": "a", "ok": [DRAWN]})
        self.assertEqual(json.loads(yazgult.answer_json("{}"))["line"], 1)

    def test_a_text_that_is_longer_than_the_room_for_answers(self):
        text = "word " * 100_000
        groups = [{"title": {"level": {"kind": "error"}, "text": text, "primary": True}, "elements": []}]
        self.assertEqual(yazgult.render(groups), f"error: {text}")

    def test_many_threads_draw(self):
        drawn = {}

        def draw(number):
            groups = report({"start": 4, "end": 5, "label": str(number) * number})
            drawn[number] = {yazgult.render(groups) for _ in range(200)}

        threads = [threading.Thread(target=draw, args=(number,)) for number in range(1, 13)]
        for it in threads:
            it.start()
        for it in threads:
            it.join()
        self.assertEqual(drawn, {number: {DRAWN.replace("here", str(number) * number)} for number in range(1, 13)})


class Refusals(unittest.TestCase):
    def assert_refused(self, kind, told, groups, **settings):
        with self.assertRaises(kind) as refused:
            yazgult.render(groups, spans="bytes", **settings)
        self.assertEqual(str(refused.exception), told)
        self.assertEqual(refused.exception.path, told.rpartition(": ")[0])

    def test_each_names_its_field_by_its_path(self):
        cause = "groups[0].elements[0].cause"
        self.assert_refused(yazgult.SpanReversed, f"{cause}.annotations[0]: span is reversed", report({"start": 5, "end": 4}))
        self.assert_refused(yazgult.SpanPastEnd, f"{cause}.annotations[0]: span ends past the source", report({"start": 5, "end": 99}))
        self.assert_refused(
            yazgult.LineNumberTooLarge, f"{cause}.line_start: line numbers are too large", report({"start": 0, "end": 3}, line_start=2**64 - 1)
        )
        self.assert_refused(yazgult.NoGroup, "groups: a short message needs a group", [], short_message=True)
        untitled = [{"title": None, "level": {"kind": "error"}, "elements": []}]
        self.assert_refused(yazgult.NoTitle, "groups[0].title: a short message needs a title", untitled, short_message=True)

    def test_parts_made_of_classes_are_named_too(self):
        made = Report()
        made.group("error", "unused")
        snippet = made.group("help", "write it so").snippet("é\n")
        snippet.patch(0, 2, "a")
        snippet.patch(1, 2, "b")
        self.assert_refused(
            yazgult.SpanOffBoundary, "groups[1].elements[0].suggestion.patches[1]: span is off a character border", made
        )
        overlapping = Report()
        both = overlapping.group("help", "write it so").snippet("abc\n")
        both.patch(0, 2, "x")
        both.patch(1, 3, "y")
        self.assert_refused(
            yazgult.PatchesOverlap, "groups[0].elements[0].suggestion.patches[1]: markers 0 and 1 overlap", overlapping
        )


class Classes(unittest.TestCase):
    def test_methods_make_a_report(self):
        made = Report()
        group = made.group("error", "never read")
        self.assertIsInstance(group, Group)
        snippet = group.snippet(SOURCE, "a.rs")
        self.assertIs(snippet.mark(4, 5, "here"), snippet)
        self.assertEqual(yazgult.render(made), DRAWN)
        self.assertEqual(made, Report([Group(Title("error", "never read"), [Snippet(SOURCE, "a.rs", [Annotation("primary", 4, 5, "here")])])]))

    def test_a_patch_makes_a_suggestion(self):
        made = Report()
        made.group("help", "leave it out", primary=False).snippet("let x = 1;\n").patch(4, 5, "_")
        self.assertEqual(yazgult.render(made), "help: leave it out\n  |\n1 - let x = 1;\n1 + let _ = 1;\n  |")

    def test_marks_and_patches_of_one_snippet_are_told(self):
        made = Report()
        made.group("error", "e").snippet("abc").mark(0, 1).patch(1, 2, "")
        with self.assertRaisesRegex(yazgult.NotDrawable, r"^groups\[0\]\.elements\[0\]\.suggestion\.annotations: unknown"):
            yazgult.render(made)

    def test_messages_and_origins(self):
        made = Report()
        made.group("error", "e").message("note", "n").origin("a.rs", 1, 2)
        alone = [Group(Title(Level("error"), "e"), [Message(Level("note"), "n"), Origin("a.rs", 1, 2)])]
        self.assertEqual(yazgult.render(made), yazgult.render(alone))
        self.assertIn("= note: n", yazgult.render(made))
        self.assertIn("a.rs:1:2", yazgult.render(made))

    def test_places_may_be_lines_and_columns(self):
        snippet = Snippet(SOURCE, "a.rs").mark((1, 5), (1, 6), "here")
        self.assertEqual(yazgult.render([Group(Title("error", "never read"), [snippet])]), DRAWN)

    def test_names_of_levels(self):
        for level, drawn in ((Level("error"), "error: t"), (Level("error", "E"), "E: t"), (Level("error", hidden=True), "t")):
            self.assertEqual(yazgult.render([Group(Title(level, "t"))]), drawn)

    def test_a_group_without_a_title_has_a_level(self):
        snippet = Snippet(SOURCE, "a.rs").mark(4, 5, "here")
        for level in ("error", Level("error")):
            self.assertEqual(yazgult.render([Group(None, [snippet], level)]), DRAWN.partition("\n")[2])

    def test_causes_suggestions_and_padding_are_as_dicts_have_them(self):
        mark, patch = {"kind": "primary", "start": 4, "end": 5, "label": "here"}, {"start": 0, "end": 3, "text": "const"}
        title = {"level": {"kind": "error"}, "text": "t", "primary": True, "id": "E1", "url": "https://a.example"}
        elements = [{"cause": {"source": SOURCE, "annotations": [mark]}}, {"padding": {}}, {"suggestion": {"source": SOURCE, "patches": [patch]}}]
        dicts = [{"title": title, "elements": elements}]
        parts = [Cause(SOURCE, [Annotation(**mark)]), Padding(), Suggestion(SOURCE, [Patch(**patch)])]
        group = Group(Title(Level("error"), "t", True, "E1", "https://a.example"), parts)
        mixed = [{"title": title, "elements": [{"cause": parts[0]}, {"padding": Padding()}, {"suggestion": parts[2]}]}]
        for given in ([group], mixed):
            self.assertEqual(yazgult.render(given, hyperlink=True), yazgult.render(dicts, hyperlink=True))

    def test_a_notebook_shows_a_report_in_colours(self):
        made = Report(report({"start": 4, "end": 5, "label": "<here>"}))
        html = made._repr_html_()
        self.assertIn(f"<article>{yazgult.render_html_page(made)}</article>", html)
        self.assertIn(yazgult.HTML_STYLESHEET + yazgult.HTML_PAGE_STYLESHEET, html)


if __name__ == "__main__":
    unittest.main()
