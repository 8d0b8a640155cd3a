"""Draws diagnostic reports as compilers print them.

    >>> import yazgult
    >>> report = yazgult.Report()
    >>> group = report.group("error", "unused variable")
    >>> snippet = group.snippet("let x = 1;\\n", "src/main.rs").mark(4, 5, "never read")
    >>> print(yazgult.render(report))
    error: unused variable
     --> src/main.rs:1:5
      |
    1 | let x = 1;
      |     ^ never read

Drawing
    render          the text of a report, in colours with the sheet "default"
    render_sheets   its texts under several sheets
    render_html     its HTML, of which HTML_STYLESHEET has the colours
    render_html_page
                    its heading, drawing and words, for <article>; HTML_PAGE_STYLESHEET hides the words from sight
    render_markdown its first title in bold, and its plain text between fences
    print_report    prints it as its terminal has it: with colours or without, and as wide
    answer_json     the answer to a report as a line of JSON
    version         the version of the library; __version__ is this package's

Reports
    A report is a list of groups, dicts with the fields of docs/REPORTS.md, or these classes, which have the same fields. Spans are from
    a place to the one after it, and count characters of the source from 0, or bytes where `spans="bytes"` is given; in the classes a
    place may be a pair of a line and a column, which count from 1.

    Report          groups: .group(level, text) adds one, .print_report(file) prints all
    Group, Title    a title, and what is below it: .snippet(source, path), .message(level, text), .origin(path)
    Snippet         a source: .mark(start, end, label) marks a part of it, .patch(start, end, text) offers another one
    Source          a source that is kept: it stands in many snippets in the place of its text
    Level           a kind, "error", "warning", "info", "note" or "help", with a name of its own, or with none
    Cause, Suggestion, Annotation, Patch, Message, Origin, Padding
                    the other parts, by their names in docs/REPORTS.md; Place, Groups, Sheet, Settings are types

For linters
    span                a span by lines and columns: span(source, 2, 5)
    from_syntax_error   the report of a SyntaxError

Exceptions, all of them an Error
    NotDrawable         what was handed over is no report: the words name the field, as groups[0].title.text
    Refused             a report gives no text: NoGroup, NoTitle, SpanReversed, SpanPastEnd, SpanOffBoundary, PatchesOverlap or
                        LineNumberTooLarge, with the numbers of group, element and marker as fields
    LibraryNotFound     the library isn't found: its words say how to get it
    OutOfMemory         there is no memory

The library libyazgult.so.1 is looked for at the first call: where the variable YAZGULT_LIBRARY says, beside this package, in the lib folder of
the prefix that it is installed under, and where the system has its libraries. Any thread may draw.
"""

# What is public has its name here as well as there: so type checkers take it for public, and `help` doesn't list each class whole.
from .drawing import Settings as Settings
from .drawing import Sheet as Sheet
from .drawing import answer_json as answer_json
from .drawing import render as render
from .drawing import render_html as render_html
from .drawing import render_html_page as render_html_page
from .drawing import render_markdown as render_markdown
from .drawing import render_sheets as render_sheets
from .drawing import version as version
from .errors import Error as Error
from .errors import LibraryNotFound as LibraryNotFound
from .errors import LineNumberTooLarge as LineNumberTooLarge
from .errors import NoGroup as NoGroup
from .errors import NotDrawable as NotDrawable
from .errors import NoTitle as NoTitle
from .errors import OutOfMemory as OutOfMemory
from .errors import PatchesOverlap as PatchesOverlap
from .errors import Refused as Refused
from .errors import SpanOffBoundary as SpanOffBoundary
from .errors import SpanPastEnd as SpanPastEnd
from .errors import SpanReversed as SpanReversed
from .linting import from_syntax_error as from_syntax_error
from .linting import span as span
from .report import Annotation as Annotation
from .report import Cause as Cause
from .report import Group as Group
from .report import Groups as Groups
from .report import Level as Level
from .report import Message as Message
from .report import Origin as Origin
from .report import Padding as Padding
from .report import Patch as Patch
from .report import Place as Place
from .report import Report as Report
from .report import Snippet as Snippet
from .report import Suggestion as Suggestion
from .report import Title as Title
from .source import Source as Source
from .stylesheet import HTML_PAGE_STYLESHEET as HTML_PAGE_STYLESHEET
from .stylesheet import HTML_STYLESHEET as HTML_STYLESHEET
from .terminal import print_report as print_report

__version__ = "1.0.0"
