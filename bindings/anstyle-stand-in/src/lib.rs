//! The names and signatures of the crate anstyle, for building `yazgult` where there is no network. Nothing is published of this.

#![forbid(unsafe_code)]
#![deny(missing_docs)]

mod codes;
mod color;
mod effects;
mod style;

pub use color::{Ansi256Color, AnsiColor, Color, RgbColor};
pub use effects::{EffectIter, Effects};
pub use style::{Reset, Style};
