//! Colours.

use crate::codes::Codes;
use crate::Style;
use std::fmt::Display;

/// A colour.
#[derive(Clone, Copy, Debug, PartialEq, Eq, PartialOrd, Ord, Hash)]
pub enum Color {
    /// One of the terminal's theme.
    Ansi(AnsiColor),
    /// One of the palette of 256.
    Ansi256(Ansi256Color),
    /// Any.
    Rgb(RgbColor),
}

impl Color {
    /// The style that has this colour of the text, on that background.
    pub fn on(self, background: impl Into<Color>) -> Style {
        self.on_default().bg_color(Some(background.into()))
    }

    /// The style that has this colour of the text, and nothing else.
    pub const fn on_default(self) -> Style {
        Style::new().fg_color(Some(self))
    }

    /// The code that makes it the colour of the text.
    pub fn render_fg(self) -> impl Display + Copy {
        Codes::of(self.on_default())
    }

    /// The code that makes it the colour of the background.
    pub fn render_bg(self) -> impl Display + Copy {
        Codes::of(Style::new().bg_color(Some(self)))
    }
}

impl From<AnsiColor> for Color {
    fn from(color: AnsiColor) -> Self {
        Color::Ansi(color)
    }
}

impl From<Ansi256Color> for Color {
    fn from(color: Ansi256Color) -> Self {
        Color::Ansi256(color)
    }
}

impl From<RgbColor> for Color {
    fn from(color: RgbColor) -> Self {
        Color::Rgb(color)
    }
}

impl From<u8> for Color {
    fn from(index: u8) -> Self {
        Color::Ansi256(index.into())
    }
}

impl From<(u8, u8, u8)> for Color {
    fn from(parts: (u8, u8, u8)) -> Self {
        Color::Rgb(parts.into())
    }
}

/// The sixteen colours that a terminal's theme has.
#[derive(Clone, Copy, Debug, PartialEq, Eq, PartialOrd, Ord, Hash)]
#[repr(u8)]
pub enum AnsiColor {
    /// Number 0.
    Black,
    /// Number 1.
    Red,
    /// Number 2.
    Green,
    /// Number 3.
    Yellow,
    /// Number 4.
    Blue,
    /// Number 5.
    Magenta,
    /// Number 6.
    Cyan,
    /// Number 7.
    White,
    /// Number 8.
    BrightBlack,
    /// Number 9.
    BrightRed,
    /// Number 10.
    BrightGreen,
    /// Number 11.
    BrightYellow,
    /// Number 12.
    BrightBlue,
    /// Number 13.
    BrightMagenta,
    /// Number 14.
    BrightCyan,
    /// Number 15.
    BrightWhite,
}

impl AnsiColor {
    /// Each of the sixteen, by its index in the palette of 256.
    const ALL: [Self; 16] = [
        Self::Black,
        Self::Red,
        Self::Green,
        Self::Yellow,
        Self::Blue,
        Self::Magenta,
        Self::Cyan,
        Self::White,
        Self::BrightBlack,
        Self::BrightRed,
        Self::BrightGreen,
        Self::BrightYellow,
        Self::BrightBlue,
        Self::BrightMagenta,
        Self::BrightCyan,
        Self::BrightWhite,
    ];

    /// The style that has this colour of the text, on that background.
    pub fn on(self, background: impl Into<Color>) -> Style {
        Color::Ansi(self).on(background)
    }

    /// The style that has this colour of the text, and nothing else.
    pub const fn on_default(self) -> Style {
        Style::new().fg_color(Some(Color::Ansi(self)))
    }

    /// The code that makes it the colour of the text.
    pub fn render_fg(self) -> impl Display + Copy {
        Color::Ansi(self).render_fg()
    }

    /// The code that makes it the colour of the background.
    pub fn render_bg(self) -> impl Display + Copy {
        Color::Ansi(self).render_bg()
    }

    /// The bright form of the colour, or the dark one.
    pub fn bright(self, yes: bool) -> Self {
        Self::ALL[self as usize % 8 + if yes { 8 } else { 0 }]
    }

    /// Whether it is one of the bright forms.
    pub fn is_bright(self) -> bool {
        self as usize >= 8
    }
}

/// An index into the palette of 256 colours.
#[derive(Clone, Copy, Debug, PartialEq, Eq, PartialOrd, Ord, Hash)]
#[repr(transparent)]
pub struct Ansi256Color(pub u8);

impl Ansi256Color {
    /// The style that has this colour of the text, on that background.
    pub fn on(self, background: impl Into<Color>) -> Style {
        Color::Ansi256(self).on(background)
    }

    /// The style that has this colour of the text, and nothing else.
    pub const fn on_default(self) -> Style {
        Style::new().fg_color(Some(Color::Ansi256(self)))
    }

    /// The index.
    pub const fn index(self) -> u8 {
        self.0
    }

    /// The colour of the theme that stands at this index, where one does.
    pub const fn into_ansi(self) -> Option<AnsiColor> {
        if self.0 < 16 {
            Some(AnsiColor::ALL[self.0 as usize])
        } else {
            None
        }
    }

    /// The index of a colour of the theme.
    pub const fn from_ansi(color: AnsiColor) -> Self {
        Ansi256Color(color as u8)
    }

    /// The code that makes it the colour of the text.
    pub fn render_fg(self) -> impl Display + Copy {
        Color::Ansi256(self).render_fg()
    }

    /// The code that makes it the colour of the background.
    pub fn render_bg(self) -> impl Display + Copy {
        Color::Ansi256(self).render_bg()
    }
}

impl From<u8> for Ansi256Color {
    fn from(index: u8) -> Self {
        Ansi256Color(index)
    }
}

impl From<AnsiColor> for Ansi256Color {
    fn from(color: AnsiColor) -> Self {
        Ansi256Color::from_ansi(color)
    }
}

/// Red, green and blue.
#[derive(Clone, Copy, Debug, PartialEq, Eq, PartialOrd, Ord, Hash)]
pub struct RgbColor(pub u8, pub u8, pub u8);

impl RgbColor {
    /// The style that has this colour of the text, on that background.
    pub fn on(self, background: impl Into<Color>) -> Style {
        Color::Rgb(self).on(background)
    }

    /// The style that has this colour of the text, and nothing else.
    pub const fn on_default(self) -> Style {
        Style::new().fg_color(Some(Color::Rgb(self)))
    }

    /// How much red.
    pub const fn r(self) -> u8 {
        self.0
    }

    /// How much green.
    pub const fn g(self) -> u8 {
        self.1
    }

    /// How much blue.
    pub const fn b(self) -> u8 {
        self.2
    }

    /// The code that makes it the colour of the text.
    pub fn render_fg(self) -> impl Display + Copy {
        Color::Rgb(self).render_fg()
    }

    /// The code that makes it the colour of the background.
    pub fn render_bg(self) -> impl Display + Copy {
        Color::Rgb(self).render_bg()
    }
}

impl From<(u8, u8, u8)> for RgbColor {
    fn from((red, green, blue): (u8, u8, u8)) -> Self {
        RgbColor(red, green, blue)
    }
}
