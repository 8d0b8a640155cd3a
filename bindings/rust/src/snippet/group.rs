use super::{Annotation, Message, Origin, Patch, Snippet, Title};
use crate::level::Level;

/// A report: its groups, in order.
///
/// ```
/// use yazgult::{Group, Level, Renderer, Report};
///
/// let groups = [
///     Level::ERROR.primary_title("mismatched types").element(Level::NOTE.message("expected a reference")),
///     Group::with_title(Level::HELP.secondary_title("write `&x`")),
/// ];
/// let report: Report<'_> = &groups;
/// assert_eq!(
///     Renderer::plain().render(report),
///     "error: mismatched types\n |\n = note: expected a reference\nhelp: write `&x`"
/// );
/// ```
pub type Report<'a> = &'a [Group<'a>];

/// A title and what stands below it.
///
/// The first group says what is wrong, later ones say more of it or offer a fix.
///
/// ```
/// use yazgult::{AnnotationKind, Group, Level, Renderer, Snippet};
///
/// let group = Group::with_title(Level::ERROR.primary_title("unknown name"))
///     .element(Snippet::source("print(nmae)").annotation(AnnotationKind::Primary.span(6..10)))
///     .element(Level::NOTE.message("`name` is known"));
/// assert_eq!(
///     Renderer::plain().render(&[group]),
///     "\
/// error: unknown name
///   |
/// 1 | print(nmae)
///   |       ^^^^
///   |
///   = note: `name` is known"
/// );
/// ```
#[derive(Clone, Debug)]
pub struct Group<'a> {
    pub(crate) level: Level<'a>,
    pub(crate) title: Option<Title<'a>>,
    pub(crate) elements: Vec<Element<'a>>,
}

impl<'a> Group<'a> {
    /// A group of this title. Its primary marks are in the style of the title's level.
    ///
    /// ```
    /// use yazgult::{Group, Level, Renderer};
    ///
    /// let group = Group::with_title(Level::WARNING.primary_title("nothing to do"));
    /// assert_eq!(Renderer::plain().render(&[group]), "warning: nothing to do");
    /// ```
    pub fn with_title(title: Title<'a>) -> Self {
        Group { level: title.level.clone(), title: Some(title), elements: Vec::new() }
    }

    /// A group without a title. Its primary marks are in the style of this level.
    ///
    /// ```
    /// use yazgult::{AnnotationKind, Group, Level, Renderer, Snippet};
    ///
    /// let snippet = Snippet::source("let x = 1;").annotation(AnnotationKind::Primary.span(4..5));
    /// let group = Group::with_level(Level::NOTE).element(snippet);
    /// assert_eq!(Renderer::plain().render(&[group]), "  |\n1 | let x = 1;\n  |     ^");
    /// ```
    pub fn with_level(level: Level<'a>) -> Self {
        Group { level, title: None, elements: Vec::new() }
    }

    /// The group with one element more: a [`Snippet`], a [`Message`], an [`Origin`] or a [`Padding`].
    ///
    /// ```
    /// use yazgult::{Group, Level, Origin, Renderer};
    ///
    /// let group = Group::with_title(Level::ERROR.primary_title("no such file")).element(Origin::path("a.conf"));
    /// assert_eq!(Renderer::plain().render(&[group]), "error: no such file\n--> a.conf");
    /// ```
    pub fn element(mut self, section: impl Into<Element<'a>>) -> Self {
        self.elements.push(section.into());
        self
    }

    /// The group with more elements.
    ///
    /// ```
    /// use yazgult::{Group, Level, Renderer};
    ///
    /// let notes = ["it is full", "nothing was written"].map(|text| Level::NOTE.message(text));
    /// let group = Group::with_title(Level::ERROR.primary_title("no room")).elements(notes);
    /// assert_eq!(
    ///     Renderer::plain().render(&[group]),
    ///     "error: no room\n |\n = note: it is full\n = note: nothing was written"
    /// );
    /// ```
    pub fn elements(mut self, sections: impl IntoIterator<Item = impl Into<Element<'a>>>) -> Self {
        self.elements.extend(sections.into_iter().map(Into::into));
        self
    }

    /// Whether there is neither a title nor an element.
    ///
    /// ```
    /// use yazgult::{Group, Level, Padding};
    ///
    /// assert!(Group::with_level(Level::NOTE).is_empty());
    /// assert!(!Group::with_level(Level::NOTE).element(Padding).is_empty());
    /// ```
    pub fn is_empty(&self) -> bool {
        self.elements.is_empty() && self.title.is_none()
    }
}

/// A part of a group. Each kind converts into one, so [`Group::element`] takes it as it is.
///
/// ```
/// use yazgult::{Element, Level, Padding};
///
/// let elements: Vec<Element<'_>> = vec![Level::NOTE.message("it is full").into(), Padding.into()];
/// assert!(matches!(elements[0], Element::Message(_)));
/// ```
#[derive(Clone, Debug)]
#[non_exhaustive]
pub enum Element<'a> {
    /// A message of its own.
    Message(Message<'a>),
    /// A source with marks: what is wrong, and where.
    Cause(Snippet<'a, Annotation<'a>>),
    /// A source with patches: what could be written there.
    Suggestion(Snippet<'a, Patch<'a>>),
    /// A place without its source.
    Origin(Origin<'a>),
    /// An empty row.
    Padding(Padding),
}

impl<'a> From<Message<'a>> for Element<'a> {
    fn from(value: Message<'a>) -> Self {
        Element::Message(value)
    }
}

impl<'a> From<Snippet<'a, Annotation<'a>>> for Element<'a> {
    fn from(value: Snippet<'a, Annotation<'a>>) -> Self {
        Element::Cause(value)
    }
}

impl<'a> From<Snippet<'a, Patch<'a>>> for Element<'a> {
    fn from(value: Snippet<'a, Patch<'a>>) -> Self {
        Element::Suggestion(value)
    }
}

impl<'a> From<Origin<'a>> for Element<'a> {
    fn from(value: Origin<'a>) -> Self {
        Element::Origin(value)
    }
}

impl From<Padding> for Element<'_> {
    fn from(value: Padding) -> Self {
        Element::Padding(value)
    }
}

/// An empty row: before a message it keeps that off the lines of a source.
///
/// ```
/// use yazgult::{AnnotationKind, Level, Padding, Renderer, Snippet};
///
/// let snippet = Snippet::source("let x = 1;").annotation(AnnotationKind::Primary.span(4..5));
/// let report = &[Level::ERROR.primary_title("unused").element(snippet).element(Padding)];
/// assert_eq!(Renderer::plain().render(report), "error: unused\n  |\n1 | let x = 1;\n  |     ^\n  |");
/// ```
#[derive(Clone, Debug)]
pub struct Padding;
