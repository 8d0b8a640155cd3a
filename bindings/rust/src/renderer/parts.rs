//! Spans of a source by lines and columns, as editors and other tools name them.
//!
//! ```
//! use yazgult::renderer::parts::{span_at, ColumnUnit, Position};
//! use yazgult::{AnnotationKind, Level, Renderer, Snippet};
//!
//! let source = "a\nlet é = 1;\n";
//! let at = span_at(source, Position { line: 2, column: 5 }, Position { line: 2, column: 6 }, ColumnUnit::Chars);
//! let snippet = Snippet::source(source).annotation(AnnotationKind::Primary.span(at.span));
//! assert_eq!(
//!     Renderer::plain().render(&[Level::ERROR.primary_title("unused").element(snippet)]),
//!     "error: unused\n  |\n2 | let é = 1;\n  |     ^"
//! );
//! ```

use crate::{level, AnnotationKind, Group, Renderer, Snippet};
use std::ops::Range;

/// What columns are counted in.
///
/// ```
/// use yazgult::renderer::parts::{span_at, ColumnUnit, Position};
///
/// let (from, to) = (Position { line: 1, column: 3 }, Position { line: 1, column: 4 });
/// assert_eq!(span_at("😀ab", from, to, ColumnUnit::Chars).span, 5..6);
/// assert_eq!(span_at("😀ab", from, to, ColumnUnit::Utf16).span, 4..5);
/// assert_eq!(span_at("日ab", from, to, ColumnUnit::Columns).span, 3..4);
/// ```
#[derive(Clone, Copy, Debug, PartialEq, Eq)]
pub enum ColumnUnit {
    /// Characters: Unicode scalar values.
    Chars,
    /// Units of UTF-16: a character outside of the basic plane is two, each other one.
    Utf16,
    /// Columns of a terminal, in which a character is as wide as a report shows it. How wide that is the library alone knows, and is
    /// asked by drawings of the line: some ten for each place.
    Columns,
}

/// A place by line and column, each counted from 1.
///
/// Each line feed begins a line, so after one that ends a text there is a line that is empty. Right after its text a line has a column
/// more.
///
/// ```
/// use yazgult::renderer::parts::{span_at, ColumnUnit, Position};
///
/// let end = Position { line: 2, column: 1 };
/// assert_eq!(span_at("a\n", end, end, ColumnUnit::Chars).span, 2..2);
/// ```
#[derive(Clone, Copy, Debug, PartialEq, Eq)]
pub struct Position {
    /// Its line.
    pub line: usize,
    /// Its column, in some unit.
    pub column: usize,
}

/// A span of a source, between characters, and whether the source doesn't hold what was asked for.
///
/// ```
/// use yazgult::renderer::parts::{span_at, ColumnUnit, Position, SpanAt};
///
/// let (from, to) = (Position { line: 1, column: 2 }, Position { line: 1, column: 9 });
/// assert_eq!(span_at("abc\n", from, to, ColumnUnit::Chars), SpanAt { span: 1..3, clamped: true });
/// ```
#[derive(Clone, Debug, PartialEq, Eq)]
pub struct SpanAt {
    /// The bytes.
    pub span: Range<usize>,
    /// Whether a place isn't in the source, or they are in the wrong order, so that this is what comes closest.
    pub clamped: bool,
}

/// The span of a source from one place to another, in bytes, as annotations and patches take it.
///
/// Of a place that the source doesn't hold it is told, by `clamped`, and what comes closest is taken: the source's start or end where
/// there is no such line, the end of the line's text where there is no such column, the start of a character that the column lies inside
/// of. A span that would end before its start is empty.
///
/// ```
/// use yazgult::renderer::parts::{span_at, ColumnUnit, Position, SpanAt};
///
/// let (from, to) = (Position { line: 2, column: 5 }, Position { line: 2, column: 6 });
/// assert_eq!(span_at("a\nlet é = 1;\n", from, to, ColumnUnit::Chars), SpanAt { span: 6..8, clamped: false });
/// ```
///
/// # Panics
///
/// By columns of a terminal, where memory is refused.
pub fn span_at(source: &str, from: Position, to: Position, unit: ColumnUnit) -> SpanAt {
    let from = place_of(source, from, unit);
    let to = place_of(source, to, unit);
    SpanAt { span: from.byte..to.byte.max(from.byte), clamped: !(from.exact && to.exact && from.byte <= to.byte) }
}

/// A byte between characters, and whether it is the place that was asked for.
struct Place {
    byte: usize,
    exact: bool,
}

fn place_of(source: &str, position: Position, unit: ColumnUnit) -> Place {
    let Some(index) = position.line.checked_sub(1) else {
        return Place { byte: 0, exact: false };
    };
    let Some(start) = line_start(source, index) else {
        return Place { byte: source.len(), exact: false };
    };
    let Some(units) = position.column.checked_sub(1) else {
        return Place { byte: start, exact: false };
    };
    let within = place_after(line_text(&source[start..]), units, unit);
    Place { byte: start + within.byte, ..within }
}

/// The byte at which the line of an index, from 0, starts.
fn line_start(source: &str, index: usize) -> Option<usize> {
    match index.checked_sub(1) {
        None => Some(0),
        Some(before) => source.match_indices('\n').nth(before).map(|(at, _)| at + 1),
    }
}

/// The first line of a text, without its end, which is a line feed or a carriage return and a line feed.
fn line_text(text: &str) -> &str {
    match text.split_once('\n') {
        Some((line, _)) => line.strip_suffix('\r').unwrap_or(line),
        None => text,
    }
}

/// The place before which a line has this many units.
fn place_after(line: &str, units: usize, unit: ColumnUnit) -> Place {
    match unit {
        ColumnUnit::Chars => place_by(line, units, |_| 1),
        ColumnUnit::Utf16 => place_by(line, units, char::len_utf16),
        ColumnUnit::Columns => place_by_columns(line, units),
    }
}

/// The same, where each character counts for itself.
fn place_by(line: &str, units: usize, units_of: fn(char) -> usize) -> Place {
    let mut left = units;
    for (byte, character) in line.char_indices() {
        let count = units_of(character);
        if left < count {
            return Place { byte, exact: left == 0 };
        }
        left -= count;
    }
    Place { byte: line.len(), exact: left == 0 }
}

/// The same by columns: the last border of characters before which there are no more of them.
fn place_by_columns(line: &str, columns: usize) -> Place {
    let borders: Vec<usize> = line.char_indices().map(|(byte, _)| byte).chain([line.len()]).collect();
    let within = borders.partition_point(|byte| columns_of(&line[..*byte]) <= columns);
    let byte = borders[within - 1];
    Place { byte, exact: columns_of(&line[..byte]) == columns }
}

/// How many columns a part of a line takes: as many as stand before a mark after it.
fn columns_of(text: &str) -> usize {
    if text.is_empty() {
        return 0;
    }
    let mark = AnnotationKind::Primary.span(text.len()..text.len());
    let snippet = Snippet::source(text).line_numbering(false).annotation(mark);
    let page = Renderer::plain().term_width(usize::MAX).render(&[Group::with_level(level::ERROR).element(snippet)]);
    // the last row has three characters of the gutter before the columns, and the mark after them
    page.rsplit('\n').next().map_or(0, |row| row.len() - 4)
}
