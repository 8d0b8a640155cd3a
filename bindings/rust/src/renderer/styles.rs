//! The style of each part of a report.

use super::{Renderer, Style};

impl Renderer {
    /// The style of an error's level, of its primary marks and their labels.
    ///
    /// ```
    /// use yazgult::renderer::AnsiColor;
    /// use yazgult::{Group, Level, Renderer};
    ///
    /// let report = &[Group::with_title(Level::ERROR.secondary_title("no room"))];
    /// let text = Renderer::plain().error(AnsiColor::Magenta.on_default().bold()).render(report);
    /// assert_eq!(text, "\x1b[1m\x1b[35merror\x1b[0m: no room");
    /// ```
    pub const fn error(mut self, style: Style) -> Self {
        self.stylesheet.error = style;
        self
    }

    /// The style of a warning's level, of its primary marks and their labels.
    pub const fn warning(mut self, style: Style) -> Self {
        self.stylesheet.warning = style;
        self
    }

    /// The style of an info's level, of its primary marks and their labels.
    pub const fn info(mut self, style: Style) -> Self {
        self.stylesheet.info = style;
        self
    }

    /// The style of a note's level, of its primary marks and their labels.
    pub const fn note(mut self, style: Style) -> Self {
        self.stylesheet.note = style;
        self
    }

    /// The style of a help's level, of its primary marks and their labels.
    pub const fn help(mut self, style: Style) -> Self {
        self.stylesheet.help = style;
        self
    }

    /// The style of line numbers and of the strokes of the gutter.
    pub const fn line_num(mut self, style: Style) -> Self {
        self.stylesheet.line_num = style;
        self
    }

    /// The style of the text of a title that stands out.
    ///
    /// ```
    /// use yazgult::renderer::Style;
    /// use yazgult::{Group, Level, Renderer};
    ///
    /// let report = &[Group::with_title(Level::ERROR.primary_title("no room"))];
    /// assert_eq!(Renderer::plain().emphasis(Style::new().bold()).render(report), "error\x1b[1m: no room\x1b[0m");
    /// ```
    pub const fn emphasis(mut self, style: Style) -> Self {
        self.stylesheet.emphasis = style;
        self
    }

    /// The style of marks and labels of context.
    pub const fn context(mut self, style: Style) -> Self {
        self.stylesheet.context = style;
        self
    }

    /// The style of text that a suggestion adds.
    pub const fn addition(mut self, style: Style) -> Self {
        self.stylesheet.addition = style;
        self
    }

    /// The style of text that a suggestion removes.
    pub const fn removal(mut self, style: Style) -> Self {
        self.stylesheet.removal = style;
        self
    }

    /// The style of everything that has none of its own.
    pub const fn none(mut self, style: Style) -> Self {
        self.stylesheet.none = style;
        self
    }
}
