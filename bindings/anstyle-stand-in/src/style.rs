//! Styles.

use crate::codes::Codes;
use crate::{Color, Effects};
use std::fmt::{self, Display};
#[cfg(feature = "std")]
use std::io::{self, Write};
use std::ops::{BitOr, BitOrAssign, Sub, SubAssign};

/// How a text looks: its colours and its effects. A colour that is left out is the terminal's own.
///
/// As a text it is its codes, and by `{:#}` the code that ends it:
///
/// ```
/// use anstyle::{AnsiColor, Effects, Style};
///
/// const LOUD: Style = AnsiColor::Magenta.on_default().effects(Effects::BOLD);
/// assert_eq!(format!("{LOUD}dyn{LOUD:#} Any"), "\x1b[1m\x1b[35mdyn\x1b[0m Any");
/// ```
#[derive(Clone, Copy, Debug, Default, PartialEq, Eq, PartialOrd, Ord, Hash)]
pub struct Style {
    fg: Option<Color>,
    bg: Option<Color>,
    underline: Option<Color>,
    effects: Effects,
}

impl Style {
    /// The plain style.
    pub const fn new() -> Self {
        Style { fg: None, bg: None, underline: None, effects: Effects::new() }
    }

    /// The style with this colour of the text.
    pub const fn fg_color(mut self, fg: Option<Color>) -> Self {
        self.fg = fg;
        self
    }

    /// The style with this background colour.
    pub const fn bg_color(mut self, bg: Option<Color>) -> Self {
        self.bg = bg;
        self
    }

    /// The style with this colour of underlines.
    pub const fn underline_color(mut self, underline: Option<Color>) -> Self {
        self.underline = underline;
        self
    }

    /// The style with these effects in place of its own.
    pub const fn effects(mut self, effects: Effects) -> Self {
        self.effects = effects;
        self
    }

    /// The style, bold too.
    pub const fn bold(mut self) -> Self {
        self.effects = self.effects.insert(Effects::BOLD);
        self
    }

    /// The style, dimmed too.
    pub const fn dimmed(mut self) -> Self {
        self.effects = self.effects.insert(Effects::DIMMED);
        self
    }

    /// The style, italic too.
    pub const fn italic(mut self) -> Self {
        self.effects = self.effects.insert(Effects::ITALIC);
        self
    }

    /// The style, underlined too.
    pub const fn underline(mut self) -> Self {
        self.effects = self.effects.insert(Effects::UNDERLINE);
        self
    }

    /// The style, blinking too.
    pub const fn blink(mut self) -> Self {
        self.effects = self.effects.insert(Effects::BLINK);
        self
    }

    /// The style, with its colours exchanged too.
    pub const fn invert(mut self) -> Self {
        self.effects = self.effects.insert(Effects::INVERT);
        self
    }

    /// The style, hidden too.
    pub const fn hidden(mut self) -> Self {
        self.effects = self.effects.insert(Effects::HIDDEN);
        self
    }

    /// The style, struck through too.
    pub const fn strikethrough(mut self) -> Self {
        self.effects = self.effects.insert(Effects::STRIKETHROUGH);
        self
    }

    /// The colour of the text.
    pub const fn get_fg_color(self) -> Option<Color> {
        self.fg
    }

    /// The background colour.
    pub const fn get_bg_color(self) -> Option<Color> {
        self.bg
    }

    /// The colour of underlines.
    pub const fn get_underline_color(self) -> Option<Color> {
        self.underline
    }

    /// The effects.
    pub const fn get_effects(self) -> Effects {
        self.effects
    }

    /// Whether there is neither a colour nor an effect.
    pub const fn is_plain(self) -> bool {
        self.fg.is_none() && self.bg.is_none() && self.underline.is_none() && self.effects.is_plain()
    }

    /// The codes that begin it.
    pub fn render(self) -> impl Display + Copy {
        Codes::of(self)
    }

    /// The code that ends it: none of a plain style.
    pub fn render_reset(self) -> impl Display + Copy {
        Codes::reset(self)
    }

    /// Writes the codes that begin it.
    #[cfg(feature = "std")]
    pub fn write_to(self, write: &mut dyn Write) -> io::Result<()> {
        write!(write, "{}", self.render())
    }

    /// Writes the code that ends it.
    #[cfg(feature = "std")]
    pub fn write_reset_to(self, write: &mut dyn Write) -> io::Result<()> {
        write!(write, "{}", self.render_reset())
    }
}

impl Display for Style {
    fn fmt(&self, f: &mut fmt::Formatter<'_>) -> fmt::Result {
        if f.alternate() {
            self.render_reset().fmt(f)
        } else {
            self.render().fmt(f)
        }
    }
}

impl From<Effects> for Style {
    fn from(effects: Effects) -> Self {
        Style::new().effects(effects)
    }
}

impl PartialEq<Effects> for Style {
    fn eq(&self, effects: &Effects) -> bool {
        *self == Style::from(*effects)
    }
}

impl BitOr<Effects> for Style {
    type Output = Self;

    fn bitor(self, effects: Effects) -> Self {
        self.effects(self.effects | effects)
    }
}

impl BitOrAssign<Effects> for Style {
    fn bitor_assign(&mut self, effects: Effects) {
        self.effects |= effects;
    }
}

impl Sub<Effects> for Style {
    type Output = Self;

    fn sub(self, effects: Effects) -> Self {
        self.effects(self.effects - effects)
    }
}

impl SubAssign<Effects> for Style {
    fn sub_assign(&mut self, effects: Effects) {
        self.effects -= effects;
    }
}

/// The code that ends all styles.
#[derive(Clone, Copy, Debug, Default, PartialEq, Eq, PartialOrd, Ord, Hash)]
pub struct Reset;

impl Reset {
    /// The code.
    pub fn render(self) -> impl Display + Copy {
        self
    }
}

impl Display for Reset {
    fn fmt(&self, f: &mut fmt::Formatter<'_>) -> fmt::Result {
        f.write_str("\x1b[0m")
    }
}
