"""Spans by lines and columns, and reports of syntax errors."""

import ast
import re
import traceback
import unittest

import yazgult
from yazgult import Group, Level, Origin, Title

SOURCE = "a = 'é' + b\n\nif \U0001f600x:\r\n    c = d"


def error_of(code, name="a.py"):
    """The error that a piece of Python has."""
    try:
        compile(code, name, "exec")
    except SyntaxError as error:
        return error
    raise AssertionError("it has none")


def ending(error, end_line, end_offset):
    """An error with an end, which Python 3.9 doesn't take when one is made."""
    error.end_lineno, error.end_offset = end_line, end_offset
    return error


def marked_by_python(error):
    """What Python itself marks of the line of an error."""
    *_, line, marks, _ = traceback.format_exception_only(type(error), error)
    found = re.search(r"\^+", marks)
    return line[found.start() : found.end()].rstrip("\n")


class Spans(unittest.TestCase):
    def at(self, *places, **unit):
        start, end = yazgult.span(SOURCE, *places, **unit)
        return SOURCE[start:end]

    def test_a_place_is_one_character(self):
        self.assertEqual(yazgult.span(SOURCE, 1, 1), (0, 1))
        self.assertEqual(self.at(1, 6), "é")
        self.assertEqual(self.at(4, 9), "d")

    def test_a_lines_end_holds_no_character(self):
        self.assertEqual(yazgult.span(SOURCE, 1, 12), (11, 11))
        self.assertEqual(yazgult.span(SOURCE, 2, 1), (12, 12))
        self.assertEqual(yazgult.span(SOURCE, 4, 10), (len(SOURCE), len(SOURCE)))

    def test_ends(self):
        self.assertEqual(self.at(1, 5, 1, 8), "'é'")
        self.assertEqual(self.at(1, 5, None, 8), "'é'")
        self.assertEqual(self.at(1, 9, 3), "+ b\n\nif \U0001f600x:\r")
        self.assertEqual(self.at(1, 11, 4, 6), "b\n\nif \U0001f600x:\r\n    c")

    def test_columns_count_bytes_or_utf16(self):
        self.assertEqual(self.at(1, 9, 1, 10, unit="byte"), " ")
        self.assertEqual((self.at(3, 8, unit="byte"), self.at(3, 6, unit="utf16"), self.at(3, 5)), ("x", "x", "x"))

    def test_nodes_of_ast(self):
        source = "é = ('ü', f(x))\n"
        for node in ast.walk(ast.parse(source)):
            if isinstance(node, ast.expr):
                start, end = yazgult.span(source, node.lineno, node.col_offset + 1, node.end_lineno, node.end_col_offset + 1, unit="byte")
                self.assertEqual(source[start:end], ast.get_source_segment(source, node))

    def test_places_that_the_source_doesnt_have_are_told(self):
        for places, unit, told in (
            ((5, 1), "char", "line: expected a number from 1 to 4, which are those of the source's lines, found 5"),
            ((0, 1), "char", "line: expected a number from 1 to 4, which are those of the source's lines, found 0"),
            ((1, 13), "char", "column: expected a number from 1 to 12, which are those of its line, found 13"),
            ((1, 1, 9), "char", "end_line: expected a number from 1 to 4, which are those of the source's lines, found 9"),
            ((1, 1, 2, 2), "char", "end_column: expected a number from 1 to 1, which are those of its line, found 2"),
            ((1, 7), "byte", "column: 7 is inside a character"),
            ((3, 5), "utf16", "column: 5 is inside a character"),
            ((1, "1"), "char", "column: expected a number from 1 to 12, which are those of its line, found a value of type str"),
        ):
            with self.assertRaises(yazgult.NotDrawable) as raised:
                yazgult.span(SOURCE, *places, unit=unit)
            self.assertEqual(str(raised.exception), told)


class SyntaxErrors(unittest.TestCase):
    def test_the_mark_stands_where_the_error_is(self):
        report = yazgult.from_syntax_error(ending(SyntaxError("never closed", ("a.py", 3, 6, "é = f(\n")), 3, 7))
        self.assertEqual(yazgult.render(report), "SyntaxError: never closed\n --> a.py:3:6\n  |\n3 | é = f(\n  |      ^")

    def test_errors_of_the_compiler(self):
        for code in ("é = = 1\n", "x = 1\ny = (\n", "def f(:\n", "x = 'abc\n", "a b c\n", "if x:\n  f(a b)\n", "'é' = 1\n", "f(a for a in b, c)\n"):
            error = error_of(code)
            marked = marked_by_python(error)
            for source in (None, code):
                report = yazgult.from_syntax_error(error, source)
                (snippet,) = report.groups[0].elements
                mark = snippet.annotations[0]
                self.assertEqual(snippet.source[mark.start : mark.end], marked, code)
                lines = yazgult.render(report).splitlines()
                self.assertEqual(lines[0], f"SyntaxError: {error.msg}")
                self.assertEqual(lines[1].strip(), f"--> a.py:{error.lineno}:{error.offset}")

    def test_the_source_is_shown_around_it(self):
        code = "x = 1\ny = (\n"
        drawn = yazgult.render(yazgult.from_syntax_error(error_of(code), code), context_before=1)
        self.assertIn("1 | x = 1\n2 | y = (\n", drawn)

    def test_kinds_of_syntax_errors_have_their_names(self):
        for code, name in (("if x:\ny\n", "IndentationError"), ("if x:\n        y\n\tz\n", "TabError")):
            self.assertTrue(yazgult.render(yazgult.from_syntax_error(error_of(code))).startswith(f"{name}: "))

    def test_what_an_error_lacks_is_left_out(self):
        for error, drawn in (
            (SyntaxError(), "SyntaxError: no detail is known"),
            (SyntaxError("m"), "SyntaxError: m"),
            (SyntaxError("m", (None, 3, None, "  x y\n")), "SyntaxError: m\n  |\n3 |   x y\n  |   ^^^"),
            (ending(SyntaxError("m", ("a\udc80.py", 1, 9, "x\n")), 7, -1), "SyntaxError: m\n --> a\ufffd.py:1:2\n  |\n1 | x\n  |  ^"),
        ):
            self.assertEqual(yazgult.render(yazgult.from_syntax_error(error)), drawn)

    def test_without_a_line_of_source_its_place_is_told(self):
        for line, offset, told in ((None, None, (None, None)), (3, None, (3, None)), (3, 4, (3, 4)), (None, 4, (None, None))):
            error = SyntaxError("m", ("a.py", line, offset, None))
            group = Group(Title(Level("error", "SyntaxError"), "m"), [Origin("a.py", *told)])
            self.assertEqual(yazgult.from_syntax_error(error).groups, [group])

    def test_any_numbers_and_texts_are_drawn(self):
        numbers = (None, -1, 0, 1, 2, 7, 2**70, "1", 1.5, True)
        for line in numbers:
            for offset in numbers:
                for text in (None, "", "x", "\tx y\n", "é\r\nz\n", b"x", "\ud800"):
                    for end_line, end_offset in ((line, 0), (line, offset), (2, 2), (0, 9), (None, -1)):
                        error = ending(SyntaxError("m", ("f", 1, 1, "t")), end_line, end_offset)
                        error.lineno, error.offset, error.text = line, offset, text
                        for source in (None, "a\nb"):
                            self.assertTrue(yazgult.render(yazgult.from_syntax_error(error, source)).startswith("SyntaxError: m"))


if __name__ == "__main__":
    unittest.main()
