use super::{Element, Group};
use crate::level::Level;
use std::borrow::Cow;

/// The identifier of a title, and the address that it links to.
#[derive(Clone, Debug, Default)]
pub(crate) struct Id<'a> {
    pub(crate) id: Option<Cow<'a, str>>,
    pub(crate) url: Option<Cow<'a, str>>,
}

/// The title of a group: a level, an identifier where there is one, and a text.
///
/// [`Level::primary_title`] and [`Level::secondary_title`] make one.
///
/// ```
/// use yazgult::{Group, Level, Renderer};
///
/// let title = Level::ERROR.primary_title("mismatched types").id("E0308");
/// assert_eq!(Renderer::plain().render(&[Group::with_title(title)]), "error[E0308]: mismatched types");
/// ```
#[derive(Clone, Debug)]
pub struct Title<'a> {
    pub(crate) level: Level<'a>,
    pub(crate) id: Option<Id<'a>>,
    pub(crate) text: Cow<'a, str>,
    pub(crate) allows_styling: bool,
}

impl<'a> Title<'a> {
    /// The title with an identifier, which is shown in brackets. It isn't trusted: characters that could change how a terminal shows
    /// the text around it are shown as others.
    ///
    /// ```
    /// use yazgult::{Group, Level, Renderer};
    ///
    /// let title = Level::WARNING.primary_title("unused variable").id("unused_variables");
    /// assert_eq!(Renderer::plain().render(&[Group::with_title(title)]), "warning[unused_variables]: unused variable");
    /// ```
    pub fn id(mut self, id: impl Into<Cow<'a, str>>) -> Self {
        self.id.get_or_insert_with(Id::default).id = Some(id.into());
        self
    }

    /// The title with an address that its identifier links to, where [`Renderer::hyperlink`](crate::Renderer::hyperlink) is set. It is
    /// written as it is given: of one that comes from anyone ask [`is_link_address`](crate::text::is_link_address) first.
    ///
    /// ```
    /// use yazgult::{Group, Level, Renderer};
    ///
    /// let title = Level::ERROR.primary_title("e").id("E1").id_url("https://a.example/E1");
    /// let text = Renderer::plain().hyperlink(true).render(&[Group::with_title(title)]);
    /// assert!(text.contains("\x1b]8;;https://a.example/E1\x1b\\E1\x1b]8;;\x1b\\"));
    /// ```
    pub fn id_url(mut self, url: impl Into<Cow<'a, str>>) -> Self {
        self.id.get_or_insert_with(Id::default).url = Some(url.into());
        self
    }

    /// A group of this title, with an element.
    ///
    /// ```
    /// use yazgult::{Level, Origin, Renderer};
    ///
    /// let report = &[Level::ERROR.primary_title("no such file").element(Origin::path("a.conf"))];
    /// assert_eq!(Renderer::plain().render(report), "error: no such file\n--> a.conf");
    /// ```
    pub fn element(self, section: impl Into<Element<'a>>) -> Group<'a> {
        Group::with_title(self).element(section)
    }

    /// A group of this title, with elements.
    ///
    /// ```
    /// use yazgult::{Level, Renderer};
    ///
    /// let notes = ["it is full", "nothing was written"].map(|text| Level::NOTE.message(text));
    /// let report = &[Level::ERROR.primary_title("no room").elements(notes)];
    /// assert_eq!(
    ///     Renderer::plain().render(report),
    ///     "error: no room\n |\n = note: it is full\n = note: nothing was written"
    /// );
    /// ```
    pub fn elements(self, sections: impl IntoIterator<Item = impl Into<Element<'a>>>) -> Group<'a> {
        Group::with_title(self).elements(sections)
    }
}

/// A message of its own, below what a group shows. [`Level::message`] makes one.
///
/// ```
/// use yazgult::{Level, Message, Renderer};
///
/// let message: Message<'_> = Level::HELP.message("free some");
/// let report = &[Level::ERROR.primary_title("no room").element(message)];
/// assert_eq!(Renderer::plain().render(report), "error: no room\n |\n = help: free some");
/// ```
#[derive(Clone, Debug)]
pub struct Message<'a> {
    pub(crate) level: Level<'a>,
    pub(crate) text: Cow<'a, str>,
}
