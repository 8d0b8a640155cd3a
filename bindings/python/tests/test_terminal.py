"""Printing: on a terminal, which is a pair of pseudo-terminals here, and into files."""

import contextlib
import fcntl
import io
import os
import pty
import struct
import tempfile
import termios
import unittest
import unittest.mock

import yazgult

REPORT = [{"title": {"level": {"kind": "error"}, "text": "never read é", "primary": True}, "elements": []}]
PLAIN = "error: never read é\n"
COLOURS = "\x1b[1m\x1b[91merror\x1b[0m"
LONG = "x" * 300


@contextlib.contextmanager
def terminal(columns):
    """A terminal with so many columns: a file that writes to it, and a function that reads what it has shown."""
    ours, its = pty.openpty()
    fcntl.ioctl(its, termios.TIOCSWINSZ, struct.pack("HHHH", 24, columns, 0, 0))
    with open(its, "w", encoding="utf-8") as file:

        def shown():
            file.close()
            parts = []
            # What was written may come in parts; an error tells that no more will.
            with contextlib.suppress(OSError):
                while part := os.read(ours, 1 << 16):
                    parts.append(part)
            return b"".join(parts).decode().replace("\r\n", "\n")

        yield file, shown
    os.close(ours)


def around(**variables):
    """The variables that count, and no others of them."""
    env = {name: it for name, it in os.environ.items() if name not in ("NO_COLOR", "TERM", "COLUMNS")}
    return unittest.mock.patch.dict(os.environ, {**env, "TERM": "xterm", **variables}, clear=True)


def wide():
    """A report whose line is cut to the width."""
    report = yazgult.Report()
    report.group("error", "e").snippet(LONG).mark(0, 1)
    return report


class Terminal(unittest.TestCase):
    def printed(self, report=REPORT, columns=80, variables={}, **settings):
        with around(**variables), terminal(columns) as (file, shown):
            yazgult.print_report(report, file, **settings)
            return shown()

    def test_a_terminal_gets_colours(self):
        self.assertTrue(self.printed().startswith(COLOURS))
        self.assertEqual(self.printed(), yazgult.render(REPORT, "default") + "\n")

    def test_no_color_and_a_dumb_terminal_get_none(self):
        for variables in ({"NO_COLOR": "1"}, {"TERM": "dumb"}):
            self.assertEqual(self.printed(variables=variables), PLAIN)
        self.assertTrue(self.printed(variables={"NO_COLOR": ""}).startswith(COLOURS))

    def test_a_sheet_that_is_given_decides(self):
        self.assertEqual(self.printed(sheet="plain"), PLAIN)
        self.assertTrue(self.printed(variables={"NO_COLOR": "1"}, sheet="default").startswith(COLOURS))

    def test_lines_are_as_wide_as_the_terminal(self):
        def width(**how):
            return max(map(len, self.printed(wide(), sheet="plain", **how).splitlines()))

        self.assertEqual((width(columns=60), width(columns=90)), (60, 90))
        self.assertEqual(width(columns=60, variables={"COLUMNS": "70"}), 70)
        self.assertEqual(width(columns=60, variables={"COLUMNS": "no number"}), 60)
        self.assertEqual(width(columns=60, term_width=50), 50)
        # A terminal without a width has that of the library.
        self.assertEqual(width(columns=0), max(map(len, yazgult.render(wide()).splitlines())))

    def test_a_file_gets_no_colours(self):
        with around(), io.StringIO() as file:
            yazgult.print_report(REPORT, file)
            yazgult.Report(REPORT).print_report(file)
            self.assertEqual(file.getvalue(), 2 * PLAIN)

    def test_standard_error_is_the_file_where_none_is_given(self):
        with around(), io.StringIO() as file, contextlib.redirect_stderr(file):
            yazgult.print_report(REPORT)
            yazgult.Report(REPORT).print_report()
            self.assertEqual(file.getvalue(), 2 * PLAIN)

    def test_nothing_is_printed_where_there_is_no_standard_error(self):
        with around(), contextlib.redirect_stderr(None):
            yazgult.print_report(REPORT)
            yazgult.Report(REPORT).print_report()

    def test_a_file_of_bytes_or_none_at_all_is_told(self):
        for file, told in ((io.BytesIO(), "file: it takes no text, as one of bytes: "), (7, "file: expected one that can be written, ")):
            with around(), self.assertRaises(yazgult.NotDrawable) as raised:
                yazgult.print_report(REPORT, file)
            self.assertTrue(str(raised.exception).startswith(told), raised.exception)

    def test_a_file_of_another_encoding_gets_escapes(self):
        with around(), tempfile.TemporaryFile("w+", encoding="ascii") as file:
            yazgult.print_report(REPORT, file)
            file.seek(0)
            self.assertEqual(file.read(), "error: never read \\xe9\n")


if __name__ == "__main__":
    unittest.main()
