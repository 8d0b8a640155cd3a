use super::*;

/// The style of each part of a report, for [`Renderer::render_sheets`]. A renderer has one of its own, which its setters change.
///
/// ```
/// use yazgult::renderer::{AnsiColor, Stylesheet};
///
/// let sheet = Stylesheet { error: AnsiColor::Magenta.on_default(), ..Stylesheet::plain() };
/// assert_eq!(sheet.warning, Stylesheet::default().warning);
/// ```
#[derive(Clone, Copy, Debug, PartialEq, Eq)]
pub struct Stylesheet {
    /// An error's level, its primary marks and their labels.
    pub error: Style,
    /// A warning's level, its primary marks and their labels.
    pub warning: Style,
    /// An info's level, its primary marks and their labels.
    pub info: Style,
    /// A note's level, its primary marks and their labels.
    pub note: Style,
    /// A help's level, its primary marks and their labels.
    pub help: Style,
    /// Line numbers and the strokes of the gutter.
    pub line_num: Style,
    /// The text of a title that stands out.
    pub emphasis: Style,
    /// Everything that has no style of its own.
    pub none: Style,
    /// Marks and labels of context.
    pub context: Style,
    /// Text that a suggestion adds.
    pub addition: Style,
    /// Text that a suggestion removes.
    pub removal: Style,
}

impl Stylesheet {
    /// The sheet in which every part is plain: no style code is written under it.
    ///
    /// ```
    /// use yazgult::renderer::{Style, Stylesheet};
    ///
    /// assert_eq!(Stylesheet::plain().error, Style::new());
    /// ```
    pub const fn plain() -> Self {
        Stylesheet {
            error: Style::new(),
            warning: Style::new(),
            info: Style::new(),
            note: Style::new(),
            help: Style::new(),
            line_num: Style::new(),
            emphasis: Style::new(),
            none: Style::new(),
            context: Style::new(),
            addition: Style::new(),
            removal: Style::new(),
        }
    }

    /// The sheet of the `DEFAULT_*_STYLE` constants.
    ///
    /// ```
    /// use yazgult::renderer::{Stylesheet, DEFAULT_ERROR_STYLE};
    ///
    /// assert_eq!(Stylesheet::styled().error, DEFAULT_ERROR_STYLE);
    /// ```
    pub const fn styled() -> Self {
        Stylesheet {
            error: DEFAULT_ERROR_STYLE,
            warning: DEFAULT_WARNING_STYLE,
            info: DEFAULT_INFO_STYLE,
            note: DEFAULT_NOTE_STYLE,
            help: DEFAULT_HELP_STYLE,
            line_num: DEFAULT_LINE_NUM_STYLE,
            emphasis: DEFAULT_EMPHASIS_STYLE,
            none: DEFAULT_NONE_STYLE,
            context: DEFAULT_CONTEXT_STYLE,
            addition: DEFAULT_ADDITION_STYLE,
            removal: DEFAULT_REMOVAL_STYLE,
        }
    }
}

impl Default for Stylesheet {
    fn default() -> Self {
        Self::plain()
    }
}
