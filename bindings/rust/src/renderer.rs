//! The settings that reports are drawn with, and the styles of their parts.
//!
//! Styles are those of the crate [anstyle](https://docs.rs/anstyle), whose names stand here too.
//!
//! ```
//! use yazgult::renderer::{AnsiColor, DecorStyle};
//! use yazgult::{Level, Renderer};
//!
//! const RENDERER: Renderer = Renderer::styled().decor_style(DecorStyle::Unicode).error(AnsiColor::Red.on_default());
//! let text = RENDERER.render(&[Level::ERROR.primary_title("no room").element(Level::NOTE.message("it is full"))]);
//! assert!(text.starts_with("\x1b[31merror\x1b[0m"));
//! ```

mod defaults;
mod error;
mod settings;
mod styles;
mod stylesheet;

pub mod parts;

pub use anstyle::*;
pub use defaults::*;
pub use error::RenderError;
pub use stylesheet::Stylesheet;

use crate::snippet::Report;
use crate::{answer, bytes, json, library};

/// A stylesheet for what [`Renderer::render_html`] gives: the default styles in colours that can be read on a light page, and on a dark
/// one where the reader prefers that. It goes into a `<style>`, and may be changed rule by rule: each class has one.
///
/// ```
/// use yazgult::renderer::HTML_STYLESHEET;
/// use yazgult::{Level, Renderer};
///
/// let page = Renderer::plain().render_html(&[Level::ERROR.primary_title("a < b").elements([Level::NOTE.message("so it is")])])?;
/// let document = format!("<!doctype html><style>{HTML_STYLESHEET}</style><pre>{page}</pre>");
/// assert!(document.contains(".snippet-error {") && page.contains("snippet-error"));
/// # Ok::<(), yazgult::renderer::RenderError>(())
/// ```
pub const HTML_STYLESHEET: &str = include_str!("renderer/html_stylesheet.css");

/// What a stylesheet has to say beside [`HTML_STYLESHEET`] for what [`Renderer::render_html_page`] gives: the words stand beside the
/// drawing for who listens, and aren't seen.
pub const HTML_PAGE_STYLESHEET: &str = include_str!("renderer/html_page_stylesheet.css");

/// The characters that strokes are drawn with.
///
/// ```
/// use yazgult::renderer::DecorStyle;
/// use yazgult::{AnnotationKind, Level, Renderer, Snippet};
///
/// let snippet = Snippet::source("ab").annotation(AnnotationKind::Primary.span(0..1).label("here"));
/// let report = &[Level::ERROR.primary_title("e").element(snippet)];
/// let text = Renderer::plain().decor_style(DecorStyle::Unicode).render(report);
/// assert_eq!(text, "error: e\n  ╭▸ \n1 │ ab\n  ╰╴━ here");
/// ```
#[derive(Debug, Clone, Copy, PartialEq, Eq)]
pub enum DecorStyle {
    /// Those of ASCII: `|`, `_`, `^`, `-`.
    Ascii,
    /// Those that Unicode has for drawing boxes.
    Unicode,
}

/// Draws reports, with these settings.
///
/// What a terminal can do is for the program to find out: whether it shows styles and links ([`styled`](Renderer::styled) or
/// [`plain`](Renderer::plain)), how wide it is ([`term_width`](Renderer::term_width)), and whether it shows Unicode
/// ([`decor_style`](Renderer::decor_style)).
///
/// ```
/// use yazgult::{Level, Origin, Renderer};
///
/// let report = &[Level::ERROR.primary_title("no such file").element(Origin::path("a.conf"))];
/// println!("{}", Renderer::styled().term_width(100).render(report));
/// ```
#[derive(Clone, Debug)]
pub struct Renderer {
    pub(crate) anonymized_origin_line_numbers: bool,
    pub(crate) anonymized_snippet_line_numbers: bool,
    pub(crate) term_width: usize,
    pub(crate) decor_style: DecorStyle,
    pub(crate) stylesheet: Stylesheet,
    pub(crate) hyperlink: bool,
    pub(crate) short_message: bool,
    pub(crate) no_graphics: bool,
    pub(crate) show_line_feeds: bool,
    pub(crate) context_before: usize,
    pub(crate) context_after: usize,
    pub(crate) wrap: bool,
    pub(crate) mask_controls: bool,
    pub(crate) label_lines: bool,
}

impl Renderer {
    /// A renderer that writes no style codes.
    ///
    /// ```
    /// use yazgult::{Group, Level, Renderer};
    ///
    /// let report = &[Group::with_title(Level::ERROR.primary_title("no room"))];
    /// assert_eq!(Renderer::plain().render(report), "error: no room");
    /// ```
    pub const fn plain() -> Self {
        Renderer {
            anonymized_origin_line_numbers: false,
            anonymized_snippet_line_numbers: false,
            term_width: DEFAULT_TERM_WIDTH,
            decor_style: DecorStyle::Ascii,
            stylesheet: Stylesheet::plain(),
            hyperlink: false,
            short_message: false,
            no_graphics: false,
            show_line_feeds: false,
            context_before: 0,
            context_after: 0,
            wrap: false,
            mask_controls: false,
            label_lines: false,
        }
    }

    /// A renderer that writes the codes of the `DEFAULT_*_STYLE` constants, and links.
    ///
    /// ```
    /// use yazgult::renderer::DEFAULT_ERROR_STYLE;
    /// use yazgult::{Group, Level, Renderer};
    ///
    /// let report = &[Group::with_title(Level::ERROR.primary_title("no room"))];
    /// let style = DEFAULT_ERROR_STYLE;
    /// assert!(Renderer::styled().render(report).starts_with(&format!("{style}error{style:#}")));
    /// ```
    pub const fn styled() -> Self {
        Renderer { stylesheet: Stylesheet::styled(), hyperlink: true, ..Renderer::plain() }
    }

    /// The text of a report.
    ///
    /// ```
    /// use yazgult::{Level, Origin, Renderer};
    ///
    /// let report = &[Level::ERROR.primary_title("no such file").element(Origin::path("a.conf"))];
    /// assert_eq!(Renderer::plain().render(report), "error: no such file\n--> a.conf");
    /// ```
    ///
    /// # Panics
    ///
    /// Where [`try_render`](Renderer::try_render) gives a refusal, in its words.
    pub fn render(&self, groups: Report<'_>) -> String {
        self.try_render(groups).unwrap_or_else(|refusal| panic!("{refusal}"))
    }

    /// The text of a report, or why there is none. Where memory is refused, that is told as any other refusal.
    ///
    /// ```
    /// use yazgult::renderer::RenderError;
    /// use yazgult::{AnnotationKind, Level, Renderer, Snippet};
    ///
    /// let snippet = Snippet::source("è").annotation(AnnotationKind::Primary.span(1..2));
    /// let refused = Renderer::plain().try_render(&[Level::ERROR.primary_title("e").element(snippet)]);
    /// assert_eq!(refused, Err(RenderError::SpanOffBoundary { group: 0, element: 0, marker: 0 }));
    /// ```
    pub fn try_render(&self, groups: Report<'_>) -> Result<String, RenderError> {
        let sheet = std::slice::from_ref(&self.stylesheet);
        library::draw(&bytes::report(self, sheet, groups)?, answer::only_text)
    }

    /// The texts of a report, one under each of these sheets, in order; the renderer's own sheet isn't looked at. They differ in
    /// their codes alone.
    ///
    /// ```
    /// use yazgult::renderer::Stylesheet;
    /// use yazgult::{Level, Origin, Renderer};
    ///
    /// let report = &[Level::ERROR.primary_title("no such file").element(Origin::path("a.conf"))];
    /// let texts = Renderer::plain().render_sheets(report, &[Stylesheet::styled(), Stylesheet::plain()])?;
    /// assert_eq!(texts[1], "error: no such file\n--> a.conf");
    /// # Ok::<(), yazgult::renderer::RenderError>(())
    /// ```
    pub fn render_sheets(&self, groups: Report<'_>, sheets: &[Stylesheet]) -> Result<Vec<String>, RenderError> {
        library::draw(&bytes::report(self, sheets, groups)?, |answer| answer::texts(&answer))
    }

    /// The page of a report's graphic form as HTML, for `<pre>`. `short_message`, `no_graphics` and the sheet aren't looked at; what has
    /// a style stands in a `<span>` of a class, for which [`HTML_STYLESHEET`] has the colours.
    ///
    /// `&`, `<`, `>`, `"` and `'` stand as references, so no text of the report is taken for a tag. Where
    /// [`hyperlink`](Renderer::hyperlink) is set, an id links to its address if that begins with `http:`, `https:` or `mailto:` and
    /// holds ASCII characters that are seen and nothing else.
    ///
    /// ```
    /// use yazgult::{AnnotationKind, Level, Renderer, Snippet};
    ///
    /// let snippet = Snippet::source("a < b").annotation(AnnotationKind::Primary.span(2..3));
    /// let page = Renderer::plain().render_html(&[Level::ERROR.primary_title("e").element(snippet)])?;
    /// assert!(page.contains("</span> a &lt; b\n"));
    /// assert!(page.ends_with("<span class=\"snippet-error\">^</span>"));
    /// # Ok::<(), yazgult::renderer::RenderError>(())
    /// ```
    pub fn render_html(&self, groups: Report<'_>) -> Result<String, RenderError> {
        let answer = library::draw_json(&json::line_for("html", self, groups)?)?;
        answer::only_json_text(&answer)?.ok_or_else(|| self.refusal_as_html(groups))
    }

    /// A report as HTML, for an `<article>`: a heading, `<h2>`, with the level, the id and the text of the first group's title, if that has
    /// one; the drawing, as [`render_html`](Renderer::render_html) gives it without links, in a `<pre>` that is hidden from who listens;
    /// and the text form in a `<pre>` of the class `snippet-text`, which [`HTML_PAGE_STYLESHEET`] hides from sight.
    ///
    /// Where [`hyperlink`](Renderer::hyperlink) is set, the id in the heading links to its address, if that may be a link.
    ///
    /// ```
    /// use yazgult::{Level, Origin, Renderer};
    ///
    /// let report = &[Level::ERROR.primary_title("no <file>").element(Origin::path("a.conf"))];
    /// let article = Renderer::plain().render_html_page(report)?;
    /// assert!(article.starts_with("<h2>error: no &lt;file&gt;</h2>\n<pre aria-hidden=\"true\">\n"));
    /// assert!(article.ends_with("<pre class=\"snippet-text\">\nerror: no &lt;file&gt;\n at a.conf</pre>"));
    /// # Ok::<(), yazgult::renderer::RenderError>(())
    /// ```
    pub fn render_html_page(&self, groups: Report<'_>) -> Result<String, RenderError> {
        let answer = library::draw_json(&json::line_for("html_page", self, groups)?)?;
        answer::only_json_text(&answer)?.ok_or_else(|| self.refusal_as_html(groups))
    }

    /// A report in Markdown, for who posts it where Markdown is read: in the graphic form the title of the first group in bold, and in
    /// each form the text without codes and links between two fences. The sheet and [`hyperlink`](Renderer::hyperlink) aren't looked at.
    ///
    /// Each ASCII punctuation character of the title stands after a backslash, so nothing of it is taken for markup; its id links to its
    /// address if that begins with `http:`, `https:` or `mailto:` and holds ASCII characters that are seen and nothing else. A fence is
    /// one backquote longer than the longest run of them in the text, and at least three.
    ///
    /// ```
    /// use yazgult::{Level, Origin, Renderer};
    ///
    /// let report = &[Level::ERROR.primary_title("no such file").element(Origin::path("a.conf"))];
    /// let text = Renderer::plain().render_markdown(report)?;
    /// assert_eq!(text, "**error\\: no such file**\n\n```\nerror: no such file\n--> a.conf\n```");
    /// # Ok::<(), yazgult::renderer::RenderError>(())
    /// ```
    pub fn render_markdown(&self, groups: Report<'_>) -> Result<String, RenderError> {
        let answer = library::draw_json(&json::line_for("markdown", self, groups)?)?;
        // under no sheets a report is judged and gives no text
        answer::only_json_text(&answer)?.ok_or_else(|| self.render_sheets(groups, &[]).err().unwrap_or(RenderError::Memory))
    }

    /// Why a report gave no HTML: it is refused as in the graphic form, else there was no memory.
    fn refusal_as_html(&self, groups: Report<'_>) -> RenderError {
        let graphic = self.clone().short_message(false).no_graphics(false);
        // under no sheets a report is judged and gives no text
        graphic.render_sheets(groups, &[]).err().unwrap_or(RenderError::Memory)
    }
}
