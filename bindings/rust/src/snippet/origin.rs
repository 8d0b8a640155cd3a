use std::borrow::Cow;

/// A place without its source.
///
/// ```
/// use yazgult::{Level, Origin, Renderer};
///
/// let origin = Origin::path("a.conf").line(3).char_column(7);
/// let report = &[Level::ERROR.primary_title("no such key").element(origin)];
/// assert_eq!(Renderer::plain().render(report), "error: no such key\n--> a.conf:3:7");
/// ```
#[derive(Clone, Debug)]
pub struct Origin<'a> {
    pub(crate) path: Cow<'a, str>,
    pub(crate) line: Option<usize>,
    pub(crate) char_column: Option<usize>,
}

impl<'a> Origin<'a> {
    /// This file, with neither a line nor a column.
    ///
    /// ```
    /// use yazgult::{Level, Origin, Renderer};
    ///
    /// let report = &[Level::ERROR.primary_title("no such file").element(Origin::path("a.conf"))];
    /// assert_eq!(Renderer::plain().render(report), "error: no such file\n--> a.conf");
    /// ```
    pub fn path(path: impl Into<Cow<'a, str>>) -> Self {
        Origin { path: path.into(), line: None, char_column: None }
    }

    /// The line, counted from 1.
    ///
    /// ```
    /// use yazgult::{Level, Origin, Renderer};
    ///
    /// let report = &[Level::ERROR.primary_title("no such key").element(Origin::path("a.conf").line(3))];
    /// assert_eq!(Renderer::plain().render(report), "error: no such key\n--> a.conf:3");
    /// ```
    pub fn line(mut self, line: usize) -> Self {
        self.line = Some(line);
        self
    }

    /// The column in characters, counted from 1. It is shown where there is a line.
    ///
    /// ```
    /// use yazgult::{Level, Origin, Renderer};
    ///
    /// let origin = Origin::path("a.conf").char_column(7);
    /// let report = &[Level::ERROR.primary_title("no such key").element(origin)];
    /// assert_eq!(Renderer::plain().render(report), "error: no such key\n--> a.conf");
    /// ```
    pub fn char_column(mut self, char_column: usize) -> Self {
        self.char_column = Some(char_column);
        self
    }
}

impl<'a> From<Cow<'a, str>> for Origin<'a> {
    fn from(origin: Cow<'a, str>) -> Self {
        Origin::path(origin)
    }
}
