//! What a report is made of.

mod group;
mod origin;
mod source;
mod source_lines;
mod text;
mod title;

pub use group::{Element, Group, Padding, Report};
pub use origin::Origin;
pub use source::{Annotation, AnnotationKind, Patch, Snippet};
pub(crate) use source_lines::Shared;
pub use source_lines::SourceLines;
pub use text::OptionCow;
pub use title::{Message, Title};

pub(crate) use title::Id;
