use std::error::Error;
use std::fmt;

/// Why a report gives no text.
///
/// Groups, elements and markers are numbered from 0; a marker is an annotation or a patch. Of several faults the first is named: groups,
/// elements and markers in order, then an element's patches that overlap, then its line numbers.
///
/// ```
/// use yazgult::renderer::RenderError;
/// use yazgult::{AnnotationKind, Level, Renderer, Snippet};
///
/// let snippet = Snippet::source("ab").annotation(AnnotationKind::Primary.span(0..4));
/// let refused = Renderer::plain().try_render(&[Level::ERROR.primary_title("e").element(snippet)]).unwrap_err();
/// assert_eq!(refused, RenderError::SpanPastEnd { group: 0, element: 0, marker: 0 });
/// assert_eq!(refused.to_string(), "group 0, element 0, marker 0: span ends past the source");
/// ```
#[derive(Clone, Copy, Debug, PartialEq, Eq)]
pub enum RenderError {
    /// The short form was asked for, and the report is empty.
    NoGroup,
    /// The short form was asked for, and the first group has no title.
    NoTitle,
    /// A span starts after its end.
    SpanReversed {
        /// The group.
        group: usize,
        /// The element of it.
        element: usize,
        /// The marker of that.
        marker: usize,
    },
    /// A span ends more than one byte after the source.
    SpanPastEnd {
        /// The group.
        group: usize,
        /// The element of it.
        element: usize,
        /// The marker of that.
        marker: usize,
    },
    /// A span starts or ends inside a character.
    SpanOffBoundary {
        /// The group.
        group: usize,
        /// The element of it.
        element: usize,
        /// The marker of that.
        marker: usize,
    },
    /// Two patches of a snippet overlap: in the order by start, then end, else as given, the one ends after the start of the other.
    PatchesOverlap {
        /// The group.
        group: usize,
        /// The element of it.
        element: usize,
        /// One of the patches.
        first: usize,
        /// The other one, whose number is greater.
        second: usize,
    },
    /// The number after that of a snippet's last line doesn't fit in a `usize`.
    LineNumberTooLarge {
        /// The group.
        group: usize,
        /// The element of it.
        element: usize,
    },
    /// A growth of memory was refused.
    Memory,
}

impl fmt::Display for RenderError {
    fn fmt(&self, f: &mut fmt::Formatter<'_>) -> fmt::Result {
        match self {
            RenderError::NoGroup => write!(f, "a short message needs a group"),
            RenderError::NoTitle => write!(f, "a short message needs a title"),
            RenderError::SpanReversed { group, element, marker } => {
                write!(f, "group {group}, element {element}, marker {marker}: span is reversed")
            }
            RenderError::SpanPastEnd { group, element, marker } => {
                write!(f, "group {group}, element {element}, marker {marker}: span ends past the source")
            }
            RenderError::SpanOffBoundary { group, element, marker } => {
                write!(f, "group {group}, element {element}, marker {marker}: span is off a character border")
            }
            RenderError::PatchesOverlap { group, element, first, second } => {
                write!(f, "group {group}, element {element}: markers {first} and {second} overlap")
            }
            RenderError::LineNumberTooLarge { group, element } => {
                write!(f, "group {group}, element {element}: line numbers are too large")
            }
            RenderError::Memory => write!(f, "out of memory"),
        }
    }
}

impl Error for RenderError {}
