//! The level of a title or message: how severe it is, and the name that is shown for it.
//!
//! ```
//! use yazgult::level::{Level, ERROR};
//!
//! assert_eq!(ERROR, Level::ERROR);
//! ```

use crate::snippet::{Message, OptionCow, Title};
use std::borrow::Cow;

/// An error, in the way of what was asked for.
pub const ERROR: Level<'_> = Level::of(Severity::Error);
/// Something that is likely wrong and doesn't stop the work.
pub const WARNING: Level<'_> = Level::of(Severity::Warning);
/// Something worth knowing.
pub const INFO: Level<'_> = Level::of(Severity::Info);
/// More on a message that stands before.
pub const NOTE: Level<'_> = Level::of(Severity::Note);
/// What could be done about a message that stands before.
pub const HELP: Level<'_> = Level::of(Severity::Help);

/// How severe a title or message is, and the name that is shown for that. It makes titles and messages.
///
/// ```
/// use yazgult::{Level, Renderer};
///
/// let report = &[Level::ERROR.primary_title("mismatched types").element(Level::NOTE.message("expected a number"))];
/// assert_eq!(Renderer::plain().render(report), "error: mismatched types\n |\n = note: expected a number");
/// ```
#[derive(Clone, Debug, PartialEq, Eq, PartialOrd, Ord)]
pub struct Level<'a> {
    pub(crate) name: Name<'a>,
    pub(crate) kind: Severity,
}

#[derive(Clone, Debug, PartialEq, Eq, PartialOrd, Ord)]
pub(crate) enum Name<'a> {
    Standard,
    Hidden,
    Own(Cow<'a, str>),
}

#[derive(Clone, Copy, Debug, PartialEq, Eq, PartialOrd, Ord)]
pub(crate) enum Severity {
    Error,
    Warning,
    Info,
    Note,
    Help,
}

impl<'a> Level<'a> {
    /// The constant [`ERROR`].
    pub const ERROR: Self = ERROR;
    /// The constant [`WARNING`].
    pub const WARNING: Self = WARNING;
    /// The constant [`INFO`].
    pub const INFO: Self = INFO;
    /// The constant [`NOTE`].
    pub const NOTE: Self = NOTE;
    /// The constant [`HELP`].
    pub const HELP: Self = HELP;

    const fn of(kind: Severity) -> Self {
        Level { name: Name::Standard, kind }
    }

    /// A title for the first group of a report, from a text that isn't trusted: characters that could change how a terminal shows the
    /// text around it are shown as others.
    ///
    /// ```
    /// use yazgult::{Group, Level, Renderer};
    ///
    /// let report = &[Group::with_title(Level::ERROR.primary_title("an \x1b in a name"))];
    /// assert_eq!(Renderer::plain().render(report), "error: an ␛ in a name");
    /// ```
    pub fn primary_title(self, text: impl Into<Cow<'a, str>>) -> Title<'a> {
        Title { level: self, id: None, text: text.into(), allows_styling: false }
    }

    /// A title for a later group, from a trusted text: it is drawn as it is, with any style codes that it holds.
    ///
    /// ```
    /// use yazgult::renderer::AnsiColor;
    /// use yazgult::{Group, Level, Renderer};
    ///
    /// let style = AnsiColor::Magenta.on_default();
    /// let title = Level::HELP.secondary_title(format!("write {style}dyn{style:#}"));
    /// let text = Renderer::plain().render(&[Group::with_title(title)]);
    /// assert_eq!(text, "help: write \x1b[35mdyn\x1b[0m");
    /// ```
    pub fn secondary_title(self, text: impl Into<Cow<'a, str>>) -> Title<'a> {
        Title { level: self, id: None, text: text.into(), allows_styling: true }
    }

    /// A message, from a trusted text: it is drawn as it is, with any style codes that it holds. What comes from anyone goes through
    /// [`normalize_untrusted_str`](crate::normalize_untrusted_str) first.
    ///
    /// ```
    /// use yazgult::{normalize_untrusted_str, Level, Renderer};
    ///
    /// let found = "a\x1bb";
    /// let message = Level::NOTE.message(format!("found {}", normalize_untrusted_str(found)));
    /// let report = &[Level::ERROR.primary_title("unknown name").element(message)];
    /// assert_eq!(Renderer::plain().render(report), "error: unknown name\n |\n = note: found a␛b");
    /// ```
    pub fn message(self, text: impl Into<Cow<'a, str>>) -> Message<'a> {
        Message { level: self, text: text.into() }
    }

    /// The level, shown by this name; given none, it is shown without a name. The name isn't trusted.
    ///
    /// ```
    /// use yazgult::{Group, Level, Renderer};
    ///
    /// let title = Level::ERROR.with_name("internal compiler error").primary_title("out of bounds");
    /// assert_eq!(Renderer::plain().render(&[Group::with_title(title)]), "internal compiler error: out of bounds");
    /// ```
    pub fn with_name(self, name: impl Into<OptionCow<'a>>) -> Self {
        let name = name.into().0.map_or(Name::Hidden, Name::Own);
        Level { name, ..self }
    }

    /// The level without a name.
    ///
    /// ```
    /// use yazgult::{Level, Renderer};
    ///
    /// let report = &[Level::ERROR.primary_title("no room").element(Level::NOTE.no_name().message("it is full"))];
    /// assert_eq!(Renderer::plain().render(report), "error: no room\n |\n = it is full");
    /// ```
    pub fn no_name(self) -> Self {
        Level { name: Name::Hidden, ..self }
    }
}
