//! What is drawn, and how wide.

use super::{DecorStyle, Renderer};

impl Renderer {
    /// Whether a report is written without graphics, for speech and Braille; where it is, `short_message` isn't looked at.
    ///
    /// ```
    /// use yazgult::{AnnotationKind, Level, Renderer, Snippet};
    ///
    /// let mark = AnnotationKind::Primary.span(4..5).label("here");
    /// let snippet = Snippet::source("let x = 1;").path("a.rs").annotation(mark);
    /// let report = &[Level::ERROR.primary_title("unused").element(snippet)];
    /// assert_eq!(Renderer::plain().no_graphics(true).render(report), "error: unused\n at a.rs:1:5: here");
    /// ```
    pub const fn no_graphics(mut self, no_graphics: bool) -> Self {
        self.no_graphics = no_graphics;
        self
    }

    /// Whether a report is drawn on one line, for editors and logs. Such a report needs a group, and its first group a title.
    ///
    /// ```
    /// use yazgult::{AnnotationKind, Level, Renderer, Snippet};
    ///
    /// let mark = AnnotationKind::Primary.span(4..5).label("here");
    /// let snippet = Snippet::source("let x = 1;").path("a.rs").annotation(mark);
    /// let report = &[Level::ERROR.primary_title("unused").element(snippet)];
    /// assert_eq!(Renderer::plain().short_message(true).render(report), "a.rs:1:5: error: unused: here");
    /// ```
    pub const fn short_message(mut self, short_message: bool) -> Self {
        self.short_message = short_message;
        self
    }

    /// The width that lines are cut to, in columns.
    ///
    /// ```
    /// use yazgult::{AnnotationKind, Level, Renderer, Snippet};
    ///
    /// let snippet = Snippet::source("a".repeat(60)).annotation(AnnotationKind::Primary.span(30..31));
    /// let report = &[Level::ERROR.primary_title("e").element(snippet)];
    /// let text = Renderer::plain().term_width(20).render(report);
    /// assert_eq!(text, "error: e\n  |\n1 | ...aaaaaaaaaa...\n  |        ^");
    /// ```
    pub const fn term_width(mut self, term_width: usize) -> Self {
        self.term_width = term_width;
        self
    }

    /// The characters that strokes are drawn with.
    ///
    /// ```
    /// use yazgult::renderer::DecorStyle;
    /// use yazgult::{AnnotationKind, Level, Renderer, Snippet};
    ///
    /// let snippet = Snippet::source("ab").annotation(AnnotationKind::Primary.span(0..1).label("here"));
    /// let report = &[Level::ERROR.primary_title("e").element(snippet)];
    /// let text = Renderer::plain().decor_style(DecorStyle::Unicode).render(report);
    /// assert_eq!(text, "error: e\n  ╭▸ \n1 │ ab\n  ╰╴━ here");
    /// ```
    pub const fn decor_style(mut self, decor_style: DecorStyle) -> Self {
        self.decor_style = decor_style;
        self
    }

    /// Whether the numbers of lines in snippets are shown as `LL`, so that texts don't change where lines move.
    ///
    /// ```
    /// use yazgult::{AnnotationKind, Level, Renderer, Snippet};
    ///
    /// let snippet = Snippet::source("ab").annotation(AnnotationKind::Primary.span(0..1));
    /// let report = &[Level::ERROR.primary_title("e").element(snippet)];
    /// let text = Renderer::plain().anonymized_snippet_line_numbers(true).render(report);
    /// assert_eq!(text, "error: e\n   |\nLL | ab\n   | ^");
    /// ```
    pub const fn anonymized_snippet_line_numbers(mut self, yes: bool) -> Self {
        self.anonymized_snippet_line_numbers = yes;
        self
    }

    /// The same as [`anonymized_snippet_line_numbers`](Renderer::anonymized_snippet_line_numbers).
    #[deprecated(note = "replaced with `Renderer::anonymized_snippet_line_numbers`")]
    pub const fn anonymized_line_numbers(self, yes: bool) -> Self {
        self.anonymized_snippet_line_numbers(yes)
    }

    /// Whether the numbers of lines after paths are shown as `LL`.
    ///
    /// ```
    /// use yazgult::{AnnotationKind, Level, Renderer, Snippet};
    ///
    /// let snippet = Snippet::source("ab").path("a.rs").annotation(AnnotationKind::Primary.span(0..1));
    /// let report = &[Level::ERROR.primary_title("e").element(snippet)];
    /// let text = Renderer::plain().anonymized_origin_line_numbers(true).render(report);
    /// assert_eq!(text, "error: e\n --> a.rs:LL:1\n  |\n1 | ab\n  | ^");
    /// ```
    pub const fn anonymized_origin_line_numbers(mut self, yes: bool) -> Self {
        self.anonymized_origin_line_numbers = yes;
        self
    }

    /// Whether the identifiers of titles link to their addresses.
    ///
    /// ```
    /// use yazgult::{Group, Level, Renderer};
    ///
    /// let title = Level::ERROR.primary_title("e").id("E1").id_url("https://a.example/E1");
    /// let report = &[Group::with_title(title)];
    /// assert_eq!(Renderer::plain().render(report), "error[E1]: e");
    /// assert!(Renderer::plain().hyperlink(true).render(report).contains("\x1b]8;;https://a.example/E1\x1b\\"));
    /// ```
    pub const fn hyperlink(mut self, hyperlink: bool) -> Self {
        self.hyperlink = hyperlink;
        self
    }

    /// Whether line feeds of labels, paths, identifiers and level names are shown, as `␊`, and in the text form those of replacements, so
    /// that no such text can begin a line of the report. They are drawn as they are unless this says otherwise.
    ///
    /// ```
    /// use yazgult::{AnnotationKind, Level, Renderer, Snippet};
    ///
    /// let snippet = Snippet::source("ab").annotation(AnnotationKind::Primary.span(0..1).label("here\nthere"));
    /// let report = &[Level::ERROR.primary_title("e").element(snippet)];
    /// let text = Renderer::plain().show_line_feeds(true).render(report);
    /// assert_eq!(text, "error: e\n  |\n1 | ab\n  | ^ here␊there");
    /// ```
    pub const fn show_line_feeds(mut self, show_line_feeds: bool) -> Self {
        self.show_line_feeds = show_line_feeds;
        self
    }

    /// How many lines before and after each line that is shown for its spans are shown too, in the graphic form. There are none unless
    /// this says otherwise.
    ///
    /// ```
    /// use yazgult::{AnnotationKind, Level, Renderer, Snippet};
    ///
    /// let snippet = Snippet::source("a\nb\nc\nd\ne").annotation(AnnotationKind::Primary.span(4..5));
    /// let report = &[Level::ERROR.primary_title("t").element(snippet)];
    /// let text = Renderer::plain().context_lines(1, 0).render(report);
    /// assert_eq!(text, "error: t\n  |\n2 | b\n3 | c\n  | ^");
    /// ```
    pub const fn context_lines(mut self, before: usize, after: usize) -> Self {
        self.context_before = before;
        self.context_after = after;
        self
    }

    /// Whether a line of a title, message or label that is wider than the room right of where it begins is broken at the last blank before
    /// that, that of a label if there is room for 20 columns. It is drawn as it is unless this says otherwise.
    ///
    /// ```
    /// use yazgult::{Group, Level, Renderer};
    ///
    /// let report = &[Group::with_title(Level::ERROR.primary_title("mismatched types in a call"))];
    /// let text = Renderer::plain().term_width(20).wrap(true).render(report);
    /// assert_eq!(text, "error: mismatched\n       types in a\n       call");
    /// ```
    pub const fn wrap(mut self, wrap: bool) -> Self {
        self.wrap = wrap;
        self
    }

    /// Whether the controls of texts are drawn as signs that could change how a terminal shows the text around them: U+0080 to U+009F,
    /// U+061C, U+200E, U+200F, U+2028 and U+2029 in all texts but addresses, and in secondary titles and messages those of ASCII too. They
    /// are drawn as they are unless this says otherwise.
    ///
    /// ```
    /// use yazgult::{Group, Level, Renderer};
    ///
    /// let report = &[Group::with_title(Level::ERROR.primary_title("a\u{9b}31mb\u{200f}"))];
    /// assert_eq!(Renderer::plain().mask_controls(true).render(report), "error: a¤31mb\u{fffd}");
    /// ```
    pub const fn mask_controls(mut self, mask_controls: bool) -> Self {
        self.mask_controls = mask_controls;
        self
    }

    /// Whether labels are cut at their line feeds, so that each line of a label stands in a row of its own below the one before it. Where
    /// line feeds are shown there are none to cut at. A line feed of a label ends its row unless this says otherwise.
    ///
    /// ```
    /// use yazgult::{AnnotationKind, Level, Renderer, Snippet};
    ///
    /// let source = Snippet::source("ab").annotation(AnnotationKind::Primary.span(0..1).label("a\nb"));
    /// let report = &[Level::ERROR.primary_title("no room").element(source)];
    /// let text = Renderer::plain().label_lines(true).render(report);
    /// assert_eq!(text, "error: no room\n  |\n1 | ab\n  | ^ a\n  |   b");
    /// ```
    pub const fn label_lines(mut self, label_lines: bool) -> Self {
        self.label_lines = label_lines;
        self
    }
}
