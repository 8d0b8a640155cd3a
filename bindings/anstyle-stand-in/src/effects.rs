//! Effects.

use std::fmt;
use std::ops::{BitOr, BitOrAssign, Sub, SubAssign};

/// Effects, each on or off.
#[derive(Clone, Copy, Default, PartialEq, Eq, PartialOrd, Ord, Hash)]
pub struct Effects(u16);

impl Effects {
    /// Bold.
    pub const BOLD: Self = Effects(1);
    /// Dimmed.
    pub const DIMMED: Self = Effects(1 << 1);
    /// Italic.
    pub const ITALIC: Self = Effects(1 << 2);
    /// Underlined.
    pub const UNDERLINE: Self = Effects(1 << 3);
    /// Underlined twice.
    pub const DOUBLE_UNDERLINE: Self = Effects(1 << 4);
    /// Underlined by a wave.
    pub const CURLY_UNDERLINE: Self = Effects(1 << 5);
    /// Underlined by dots.
    pub const DOTTED_UNDERLINE: Self = Effects(1 << 6);
    /// Underlined by dashes.
    pub const DASHED_UNDERLINE: Self = Effects(1 << 7);
    /// Blinking.
    pub const BLINK: Self = Effects(1 << 8);
    /// With the colours exchanged.
    pub const INVERT: Self = Effects(1 << 9);
    /// Hidden.
    pub const HIDDEN: Self = Effects(1 << 10);
    /// Struck through.
    pub const STRIKETHROUGH: Self = Effects(1 << 11);

    /// Each effect, in order.
    const ALL: [Self; 12] = [
        Self::BOLD,
        Self::DIMMED,
        Self::ITALIC,
        Self::UNDERLINE,
        Self::DOUBLE_UNDERLINE,
        Self::CURLY_UNDERLINE,
        Self::DOTTED_UNDERLINE,
        Self::DASHED_UNDERLINE,
        Self::BLINK,
        Self::INVERT,
        Self::HIDDEN,
        Self::STRIKETHROUGH,
    ];

    /// No effect.
    pub const fn new() -> Self {
        Effects(0)
    }

    /// Whether there is no effect.
    pub const fn is_plain(self) -> bool {
        self.0 == 0
    }

    /// Whether all of the others are among these.
    pub const fn contains(self, other: Self) -> bool {
        self.0 & other.0 == other.0
    }

    /// These and the others.
    pub const fn insert(self, other: Self) -> Self {
        Effects(self.0 | other.0)
    }

    /// These without the others.
    pub const fn remove(self, other: Self) -> Self {
        Effects(self.0 & !other.0)
    }

    /// None of these.
    pub const fn clear(self) -> Self {
        Effects::new()
    }

    /// These with the others, or without them.
    pub const fn set(self, other: Self, enable: bool) -> Self {
        if enable {
            self.insert(other)
        } else {
            self.remove(other)
        }
    }

    /// Each of these, by itself.
    pub fn iter(self) -> EffectIter {
        EffectIter { left: self }
    }

    /// The codes that turn them on.
    pub fn render(self) -> impl fmt::Display + Copy {
        crate::codes::Codes::of(self.into())
    }

    /// The name of the constant of one effect.
    fn name(self) -> &'static str {
        match self {
            Self::BOLD => "BOLD",
            Self::DIMMED => "DIMMED",
            Self::ITALIC => "ITALIC",
            Self::UNDERLINE => "UNDERLINE",
            Self::DOUBLE_UNDERLINE => "DOUBLE_UNDERLINE",
            Self::CURLY_UNDERLINE => "CURLY_UNDERLINE",
            Self::DOTTED_UNDERLINE => "DOTTED_UNDERLINE",
            Self::DASHED_UNDERLINE => "DASHED_UNDERLINE",
            Self::BLINK => "BLINK",
            Self::INVERT => "INVERT",
            Self::HIDDEN => "HIDDEN",
            _ => "STRIKETHROUGH",
        }
    }
}

/// The names of the effects, as `Effects(BOLD | ITALIC)`.
impl fmt::Debug for Effects {
    fn fmt(&self, f: &mut fmt::Formatter<'_>) -> fmt::Result {
        let names: Vec<_> = self.iter().map(Effects::name).collect();
        write!(f, "Effects({})", names.join(" | "))
    }
}

/// The effects among some, each by itself.
#[derive(Clone, Debug, PartialEq, Eq)]
pub struct EffectIter {
    left: Effects,
}

impl Iterator for EffectIter {
    type Item = Effects;

    fn next(&mut self) -> Option<Effects> {
        let next = Effects::ALL.into_iter().find(|it| self.left.contains(*it))?;
        self.left -= next;
        Some(next)
    }
}

impl BitOr for Effects {
    type Output = Self;

    fn bitor(self, other: Self) -> Self {
        self.insert(other)
    }
}

impl BitOrAssign for Effects {
    fn bitor_assign(&mut self, other: Self) {
        *self = self.insert(other);
    }
}

impl Sub for Effects {
    type Output = Self;

    fn sub(self, other: Self) -> Self {
        self.remove(other)
    }
}

impl SubAssign for Effects {
    fn sub_assign(&mut self, other: Self) {
        *self = self.remove(other);
    }
}
