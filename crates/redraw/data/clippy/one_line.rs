//! Modules and what they hold on one line: an attribute that is suggested there has code before it.

pub mod shop { pub enum Size { Small, Large } }
