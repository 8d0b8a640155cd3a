//! The styles of [`Renderer::styled`](crate::Renderer::styled).

use super::{AnsiColor, Effects, Style};

/// The width that lines are cut to where no other is set, in columns.
pub const DEFAULT_TERM_WIDTH: usize = 140;

const BRIGHT_BLUE: Style = AnsiColor::BrightBlue.on_default();

/// An error's level, its primary marks and their labels.
pub const DEFAULT_ERROR_STYLE: Style = AnsiColor::BrightRed.on_default().effects(Effects::BOLD);
/// A warning's level, its primary marks and their labels.
pub const DEFAULT_WARNING_STYLE: Style = AnsiColor::Yellow.on_default().effects(Effects::BOLD);
/// An info's level, its primary marks and their labels.
pub const DEFAULT_INFO_STYLE: Style = BRIGHT_BLUE.effects(Effects::BOLD);
/// A note's level, its primary marks and their labels.
pub const DEFAULT_NOTE_STYLE: Style = AnsiColor::BrightGreen.on_default().effects(Effects::BOLD);
/// A help's level, its primary marks and their labels.
pub const DEFAULT_HELP_STYLE: Style = AnsiColor::BrightCyan.on_default().effects(Effects::BOLD);
/// Line numbers and the strokes of the gutter.
pub const DEFAULT_LINE_NUM_STYLE: Style = BRIGHT_BLUE.effects(Effects::BOLD);
/// The text of a title that stands out.
pub const DEFAULT_EMPHASIS_STYLE: Style = Style::new().effects(Effects::BOLD);
/// Everything that has no style of its own.
pub const DEFAULT_NONE_STYLE: Style = Style::new();
/// Marks and labels of context.
pub const DEFAULT_CONTEXT_STYLE: Style = BRIGHT_BLUE.effects(Effects::BOLD);
/// Text that a suggestion adds.
pub const DEFAULT_ADDITION_STYLE: Style = AnsiColor::BrightGreen.on_default();
/// Text that a suggestion removes.
pub const DEFAULT_REMOVAL_STYLE: Style = AnsiColor::BrightRed.on_default();
