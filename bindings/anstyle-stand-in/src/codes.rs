//! The codes that a terminal takes for a style.

use crate::{Color, Effects, Style};
use std::fmt::{Display, Formatter, Result};

/// The codes that begin a style, or the one that ends it.
#[derive(Clone, Copy)]
pub(crate) struct Codes {
    style: Style,
    resets: bool,
}

impl Codes {
    /// The codes that begin it.
    pub(crate) const fn of(style: Style) -> Self {
        Codes { style, resets: false }
    }

    /// The code that ends it: none of a plain style.
    pub(crate) const fn reset(style: Style) -> Self {
        Codes { style, resets: true }
    }
}

impl Display for Codes {
    fn fmt(&self, f: &mut Formatter<'_>) -> Result {
        if self.resets {
            return f.write_str(if self.style.is_plain() { "" } else { "\x1b[0m" });
        }
        for effect in self.style.get_effects().iter() {
            write!(f, "\x1b[{}m", effect_code(effect))?;
        }
        if let Some(color) = self.style.get_fg_color() {
            color_code(color, 30, f)?;
        }
        if let Some(color) = self.style.get_bg_color() {
            color_code(color, 40, f)?;
        }
        match self.style.get_underline_color() {
            Some(Color::Ansi(color)) => color_code(Color::from(color as u8), 50, f),
            Some(color) => color_code(color, 50, f),
            None => Ok(()),
        }
    }
}

fn effect_code(effect: Effects) -> &'static str {
    match effect {
        Effects::BOLD => "1",
        Effects::DIMMED => "2",
        Effects::ITALIC => "3",
        Effects::UNDERLINE => "4",
        Effects::DOUBLE_UNDERLINE => "21",
        Effects::CURLY_UNDERLINE => "4:3",
        Effects::DOTTED_UNDERLINE => "4:4",
        Effects::DASHED_UNDERLINE => "4:5",
        Effects::BLINK => "5",
        Effects::INVERT => "7",
        Effects::HIDDEN => "8",
        _ => "9",
    }
}

/// Writes the code of a colour. The codes of the dark colours of the theme begin at `first`; underlines have none of these.
fn color_code(color: Color, first: u8, f: &mut Formatter<'_>) -> Result {
    let palette = first + 8;
    match color {
        Color::Ansi(color) if color.is_bright() => write!(f, "\x1b[{}m", first + 60 + color as u8 % 8),
        Color::Ansi(color) => write!(f, "\x1b[{}m", first + color as u8),
        Color::Ansi256(color) => write!(f, "\x1b[{palette};5;{}m", color.0),
        Color::Rgb(color) => write!(f, "\x1b[{palette};2;{};{};{}m", color.0, color.1, color.2),
    }
}
