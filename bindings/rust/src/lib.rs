#![doc = include_str!("../README.md")]
#![deny(missing_docs, missing_debug_implementations, unsafe_code, unsafe_op_in_unsafe_fn)]
#![deny(rustdoc::broken_intra_doc_links)]

mod answer;
mod bytes;
mod grow;
mod json;
#[allow(unsafe_code)]
mod library;
mod normalize;
mod snippet;

pub mod level;
pub mod renderer;
pub mod text;

#[doc(inline)]
pub use level::Level;
pub use normalize::normalize_untrusted_str;
#[doc(inline)]
pub use renderer::Renderer;
pub use snippet::{
    Annotation, AnnotationKind, Element, Group, Message, OptionCow, Origin, Padding, Patch, Report, Snippet,
    SourceLines, Title,
};
