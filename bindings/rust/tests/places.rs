//! Which bytes `span_at` finds for lines and columns, and where the lines of a kept source start.

use yazgult::renderer::parts::{span_at, ColumnUnit, Position, SpanAt};
use yazgult::SourceLines;

const SOURCE: &str = "é1 x\r\n😀b\n";

/// The span between two places of a source, each as its line and its column.
fn between(source: &str, from: (usize, usize), to: (usize, usize), unit: ColumnUnit) -> SpanAt {
    let position = |(line, column)| Position { line, column };
    span_at(source, position(from), position(to), unit)
}

fn chars(from: (usize, usize), to: (usize, usize)) -> SpanAt {
    between(SOURCE, from, to, ColumnUnit::Chars)
}

fn utf16(from: (usize, usize), to: (usize, usize)) -> SpanAt {
    between(SOURCE, from, to, ColumnUnit::Utf16)
}

fn exact(span: std::ops::Range<usize>) -> SpanAt {
    SpanAt { span, clamped: false }
}

fn clamped(span: std::ops::Range<usize>) -> SpanAt {
    SpanAt { span, clamped: true }
}

#[test]
fn places_of_the_source_are_found() {
    assert_eq!(chars((1, 1), (1, 2)), exact(0..2));
    assert_eq!(chars((1, 2), (2, 2)), exact(2..11));
    assert_eq!(utf16((2, 3), (2, 4)), exact(11..12));
    assert_eq!(utf16((1, 1), (1, 2)), exact(0..2));
}

#[test]
fn a_line_has_a_column_after_its_text_and_the_source_a_line_after_its_end() {
    assert_eq!(chars((1, 4), (1, 5)), exact(4..5));
    assert_eq!(chars((3, 1), (3, 1)), exact(13..13));
    assert_eq!(between("a\r", (1, 1), (1, 3), ColumnUnit::Chars), exact(0..2));
    assert_eq!(between("", (1, 1), (1, 1), ColumnUnit::Chars), exact(0..0));
}

#[test]
fn what_comes_closest_is_taken_of_other_places() {
    assert_eq!(chars((0, 1), (1, 2)), clamped(0..2));
    assert_eq!(chars((1, 0), (1, 2)), clamped(0..2));
    assert_eq!(chars((1, 4), (1, 9)), clamped(4..5));
    assert_eq!(chars((2, 1), (4, 1)), clamped(7..13));
    assert_eq!(utf16((2, 2), (2, 3)), clamped(7..11));
    assert_eq!(chars((2, 2), (1, 1)), clamped(11..11));
    assert_eq!(chars((usize::MAX, usize::MAX), (usize::MAX, usize::MAX)), clamped(13..13));
}

#[test]
fn columns_are_as_wide_as_a_report_shows_them() {
    let source = "a\né=😀\t日\r\nb\u{200d}c\u{301}\u{1b}\r";
    let columns = |from, to| between(source, from, to, ColumnUnit::Columns);
    assert_eq!(columns((2, 1), (2, 2)), exact(2..4));
    assert_eq!(columns((2, 3), (2, 5)), exact(5..9));
    assert_eq!(columns((2, 5), (2, 9)), exact(9..10));
    assert_eq!(columns((2, 4), (2, 6)), clamped(5..9));
    assert_eq!(columns((2, 9), (2, 10)), clamped(10..10));
    assert_eq!(columns((2, 11), (2, 12)), clamped(13..13));
    // what takes no column belongs to what stands before it
    assert_eq!(columns((3, 1), (3, 2)), exact(15..19));
    assert_eq!(columns((3, 2), (3, 4)), exact(19..23));
    assert_eq!(columns((3, 5), (3, usize::MAX)), clamped(24..24));
    assert_eq!(between("", (1, 1), (1, 2), ColumnUnit::Columns), clamped(0..0));
    assert_eq!(between(&"日".repeat(9000), (1, 16001), (1, 16003), ColumnUnit::Columns), exact(24000..24003));
}

#[test]
fn lines_start_after_line_feeds_but_for_the_last() {
    for (source, starts) in
        [("", &[0][..]), ("\n", &[0]), ("a\nb", &[0, 2]), ("a\n\n\n", &[0, 2, 3]), ("\u{2028}a", &[0])]
    {
        assert_eq!(SourceLines::new(source).starts(), starts, "{source:?}");
    }
}
