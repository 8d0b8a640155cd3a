use super::{OptionCow, Shared, SourceLines};
use std::borrow::Cow;
use std::ops::Range;

/// Source text with annotations, which say what is wrong where, or with patches, which say what could be written.
///
/// ```
/// use yazgult::{AnnotationKind, Level, Renderer, Snippet};
///
/// let mark = AnnotationKind::Primary.span(4..5).label("never read");
/// let snippet = Snippet::source("let x = 1;").path("src/main.rs").annotation(mark);
/// let report = &[Level::ERROR.primary_title("unused variable").element(snippet)];
/// assert_eq!(
///     Renderer::plain().render(report),
///     "error: unused variable\n --> src/main.rs:1:5\n  |\n1 | let x = 1;\n  |     ^ never read"
/// );
/// ```
#[derive(Clone, Debug)]
pub struct Snippet<'a, T> {
    pub(crate) path: Option<Cow<'a, str>>,
    pub(crate) line_start: usize,
    pub(crate) source: Cow<'a, str>,
    /// The source, where the library keeps it.
    pub(crate) kept: Option<Shared>,
    pub(crate) markers: Vec<T>,
    pub(crate) line_numbering: bool,
    pub(crate) fold: bool,
}

impl<'a, T: Clone> Snippet<'a, T> {
    /// A snippet of this source, whose first line has the number 1.
    ///
    /// ```
    /// use yazgult::{AnnotationKind, Level, Renderer, Snippet};
    ///
    /// let snippet = Snippet::source("ab").annotation(AnnotationKind::Primary.span(0..1));
    /// let report = &[Level::ERROR.primary_title("e").element(snippet)];
    /// assert_eq!(Renderer::plain().render(report), "error: e\n  |\n1 | ab\n  | ^");
    /// ```
    pub fn source(source: impl Into<Cow<'a, str>>) -> Self {
        Snippet {
            path: None,
            line_start: 1,
            source: source.into(),
            kept: None,
            markers: Vec::new(),
            line_numbering: true,
            fold: true,
        }
    }

    /// A snippet of a source that is kept. It copies nothing, and drawing it looks for no line of the source again.
    ///
    /// ```
    /// use yazgult::{AnnotationKind, Level, Renderer, Snippet, SourceLines};
    ///
    /// let lines = SourceLines::new("ab\ncd\n");
    /// let texts = [0..1, 3..4].map(|span| {
    ///     let snippet = Snippet::indexed(&lines).annotation(AnnotationKind::Primary.span(span));
    ///     Renderer::plain().render(&[Level::ERROR.primary_title("e").element(snippet)])
    /// });
    /// assert_eq!(texts[1], "error: e\n  |\n2 | cd\n  | ^");
    /// ```
    pub fn indexed(lines: &'a SourceLines<'_>) -> Self {
        Snippet { kept: lines.kept().cloned(), ..Snippet::source(lines.source()) }
    }

    /// Whether lines have their numbers beside them. They have unless this says otherwise.
    ///
    /// ```
    /// use yazgult::{AnnotationKind, Level, Renderer, Snippet};
    ///
    /// let snippet = Snippet::source("ab").annotation(AnnotationKind::Primary.span(0..1)).line_numbering(false);
    /// let report = &[Level::ERROR.primary_title("e").element(snippet)];
    /// assert_eq!(Renderer::plain().render(report), "error: e\n |\n | ab\n | ^");
    /// ```
    pub fn line_numbering(mut self, yes: bool) -> Self {
        self.line_numbering = yes;
        self
    }

    /// The number of the first line, where the source is a part of a file.
    ///
    /// ```
    /// use yazgult::{AnnotationKind, Level, Renderer, Snippet};
    ///
    /// let snippet = Snippet::source("ab").line_start(41).annotation(AnnotationKind::Primary.span(0..1));
    /// let report = &[Level::ERROR.primary_title("e").element(snippet)];
    /// assert_eq!(Renderer::plain().render(report), "error: e\n   |\n41 | ab\n   | ^");
    /// ```
    pub fn line_start(mut self, line_start: usize) -> Self {
        self.line_start = line_start;
        self
    }

    /// The path of the source. It isn't trusted: characters that could change how a terminal shows the text around it are shown as
    /// others.
    ///
    /// ```
    /// use yazgult::{AnnotationKind, Level, Renderer, Snippet};
    ///
    /// let snippet = Snippet::source("ab").path("a.rs").annotation(AnnotationKind::Primary.span(0..1));
    /// let report = &[Level::ERROR.primary_title("e").element(snippet)];
    /// assert_eq!(Renderer::plain().render(report), "error: e\n --> a.rs:1:1\n  |\n1 | ab\n  | ^");
    /// ```
    pub fn path(mut self, path: impl Into<OptionCow<'a>>) -> Self {
        self.path = path.into().0;
        self
    }

    /// Whether lines on which nothing stands are left out. They are unless this says otherwise.
    ///
    /// ```
    /// use yazgult::{AnnotationKind, Level, Renderer, Snippet};
    ///
    /// let snippet = Snippet::source("a\nb\nc").annotation(AnnotationKind::Primary.span(0..1)).fold(false);
    /// let report = &[Level::ERROR.primary_title("e").element(snippet)];
    /// assert_eq!(Renderer::plain().render(report), "error: e\n  |\n1 | a\n  | ^\n2 | b\n3 | c\n  |");
    /// ```
    pub fn fold(mut self, fold: bool) -> Self {
        self.fold = fold;
        self
    }
}

impl<'a> Snippet<'a, Annotation<'a>> {
    /// The snippet with one annotation more.
    ///
    /// ```
    /// use yazgult::{AnnotationKind, Level, Renderer, Snippet};
    ///
    /// let snippet = Snippet::source("let x = 1;")
    ///     .annotation(AnnotationKind::Primary.span(4..5).label("never read"))
    ///     .annotation(AnnotationKind::Context.span(0..3));
    /// let report = &[Level::ERROR.primary_title("unused").element(snippet)];
    /// assert_eq!(Renderer::plain().render(report), "error: unused\n  |\n1 | let x = 1;\n  | --- ^ never read");
    /// ```
    pub fn annotation(mut self, annotation: Annotation<'a>) -> Self {
        self.markers.push(annotation);
        self
    }

    /// The snippet with more annotations.
    ///
    /// ```
    /// use yazgult::{AnnotationKind, Level, Renderer, Snippet};
    ///
    /// let found = [0..1, 4..5].map(|span| AnnotationKind::Primary.span(span));
    /// let snippet = Snippet::source("a + a").annotations(found);
    /// let report = &[Level::ERROR.primary_title("unknown name").element(snippet)];
    /// assert_eq!(Renderer::plain().render(report), "error: unknown name\n  |\n1 | a + a\n  | ^   ^");
    /// ```
    pub fn annotations(mut self, annotation: impl IntoIterator<Item = Annotation<'a>>) -> Self {
        self.markers.extend(annotation);
        self
    }
}

impl<'a> Snippet<'a, Patch<'a>> {
    /// The snippet with one patch more.
    ///
    /// ```
    /// use yazgult::{Level, Patch, Renderer, Snippet};
    ///
    /// let snippet = Snippet::source("foo()").patch(Patch::new(4..4, "x"));
    /// let report = &[Level::HELP.secondary_title("name it").element(snippet)];
    /// assert_eq!(Renderer::plain().render(report), "help: name it\n  |\n1 | foo(x)\n  |     +");
    /// ```
    pub fn patch(mut self, patch: Patch<'a>) -> Self {
        self.markers.push(patch);
        self
    }

    /// The snippet with more patches. Two that overlap are refused where the report is drawn.
    ///
    /// ```
    /// use yazgult::{Level, Patch, Renderer, Snippet};
    ///
    /// let snippet = Snippet::source("a + b").patches([Patch::new(0..0, "("), Patch::new(5..5, ")")]);
    /// let report = &[Level::HELP.secondary_title("use parentheses").element(snippet)];
    /// assert_eq!(Renderer::plain().render(report), "help: use parentheses\n  |\n1 | (a + b)\n  | +     +");
    /// ```
    pub fn patches(mut self, patches: impl IntoIterator<Item = Patch<'a>>) -> Self {
        self.markers.extend(patches);
        self
    }
}

/// A marked span of a source. [`AnnotationKind::span`] makes one.
///
/// ```
/// use yazgult::{AnnotationKind, Level, Renderer, Snippet};
///
/// let mark = AnnotationKind::Primary.span(4..5).label("never read");
/// let report = &[Level::ERROR.primary_title("unused").element(Snippet::source("let x = 1;").annotation(mark))];
/// assert_eq!(Renderer::plain().render(report), "error: unused\n  |\n1 | let x = 1;\n  |     ^ never read");
/// ```
#[derive(Clone, Debug)]
pub struct Annotation<'a> {
    pub(crate) span: Range<usize>,
    pub(crate) label: Option<Cow<'a, str>>,
    pub(crate) kind: AnnotationKind,
    pub(crate) highlight_source: bool,
}

impl<'a> Annotation<'a> {
    /// The text that stands by the mark. It isn't trusted: characters that could change how a terminal shows the text around it are
    /// shown as others.
    ///
    /// ```
    /// use yazgult::{AnnotationKind, Level, Renderer, Snippet};
    ///
    /// let mark = AnnotationKind::Context.span(0..3).label("here");
    /// let report = &[Level::ERROR.primary_title("e").element(Snippet::source("let x = 1;").annotation(mark))];
    /// assert_eq!(Renderer::plain().render(report), "error: e\n  |\n1 | let x = 1;\n  | --- here");
    /// ```
    pub fn label(mut self, label: impl Into<OptionCow<'a>>) -> Self {
        self.label = label.into().0;
        self
    }

    /// Whether the source itself is in the style of the mark.
    ///
    /// ```
    /// use yazgult::renderer::DEFAULT_ERROR_STYLE;
    /// use yazgult::{AnnotationKind, Level, Renderer, Snippet};
    ///
    /// let mark = AnnotationKind::Primary.span(4..5).highlight_source(true);
    /// let report = &[Level::ERROR.primary_title("unused").element(Snippet::source("let x = 1;").annotation(mark))];
    /// let style = DEFAULT_ERROR_STYLE;
    /// assert!(Renderer::styled().render(report).contains(&format!("let {style}x{style:#} = 1;")));
    /// ```
    pub fn highlight_source(mut self, highlight_source: bool) -> Self {
        self.highlight_source = highlight_source;
        self
    }
}

/// What a span is marked for.
///
/// ```
/// use yazgult::{AnnotationKind, Level, Renderer, Snippet};
///
/// let snippet = Snippet::source("let x = 1;\nx;")
///     .annotation(AnnotationKind::Primary.span(4..5))
///     .annotation(AnnotationKind::Context.span(0..3))
///     .annotation(AnnotationKind::Visible.span(11..12));
/// let report = &[Level::ERROR.primary_title("e").element(snippet)];
/// assert_eq!(Renderer::plain().render(report), "error: e\n  |\n1 | let x = 1;\n  | --- ^\n2 | x;\n  |");
/// ```
#[derive(Clone, Copy, Debug, PartialEq, Eq, PartialOrd, Ord)]
#[non_exhaustive]
pub enum AnnotationKind {
    /// What the title speaks of.
    Primary,
    /// What helps to understand it.
    Context,
    /// Its lines are shown, and nothing marks it.
    Visible,
}

impl AnnotationKind {
    /// An annotation of this kind, at these bytes of the source. [`span_at`](crate::renderer::parts::span_at) makes a span of lines and
    /// columns. One that isn't of the source is refused where the report is drawn.
    ///
    /// ```
    /// use yazgult::{AnnotationKind, Level, Renderer, Snippet};
    ///
    /// let source = "let è = 1;";
    /// let start = source.find('è').expect("it is there");
    /// let mark = AnnotationKind::Primary.span(start..start + 'è'.len_utf8());
    /// let report = &[Level::ERROR.primary_title("unused").element(Snippet::source(source).annotation(mark))];
    /// assert_eq!(Renderer::plain().render(report), "error: unused\n  |\n1 | let è = 1;\n  |     ^");
    /// ```
    pub fn span<'a>(self, span: Range<usize>) -> Annotation<'a> {
        Annotation { span, label: None, kind: self, highlight_source: false }
    }
}

/// A text in place of some bytes of a source.
///
/// ```
/// use yazgult::{Level, Patch, Renderer, Snippet};
///
/// let snippet = Snippet::source("foo").patch(Patch::new(0..3, "bar"));
/// let report = &[Level::HELP.secondary_title("use this").element(snippet)];
/// assert_eq!(Renderer::plain().render(report), "help: use this\n  |\n1 - foo\n1 + bar\n  |");
/// ```
#[derive(Clone, Debug)]
pub struct Patch<'a> {
    pub(crate) span: Range<usize>,
    pub(crate) replacement: Cow<'a, str>,
}

impl<'a> Patch<'a> {
    /// This text in place of these bytes: an insertion where there are none, a deletion where it is empty.
    ///
    /// ```
    /// use yazgult::{Level, Patch, Renderer, Snippet};
    ///
    /// let snippet = Snippet::source("a").patch(Patch::new(0..1, ""));
    /// let report = &[Level::HELP.secondary_title("leave it out").element(snippet)];
    /// assert_eq!(Renderer::plain().render(report), "help: leave it out\n  |\n1 - a\n  |");
    /// ```
    pub fn new(span: Range<usize>, replacement: impl Into<Cow<'a, str>>) -> Self {
        Patch { span, replacement: replacement.into() }
    }
}
