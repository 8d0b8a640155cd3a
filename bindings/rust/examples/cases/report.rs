//! Cases as the API's values.

use crate::json::Json;
use std::ops::Range;
use yazgult::renderer::parts::{span_at, ColumnUnit, Position};
use yazgult::renderer::{Ansi256Color, AnsiColor, Color, DecorStyle, Effects, RgbColor, Style, Stylesheet};
use yazgult::{
    Annotation, AnnotationKind, Element, Group, Level, Message, Origin, Padding, Patch, Renderer, Snippet, Title,
};

/// The renderer of a case, without its sheet.
pub fn renderer(case: &Json) -> Renderer {
    let none = Json::Null;
    let s = case.get("settings").unwrap_or(&none);
    let decor = if s.flag("unicode", false) { DecorStyle::Unicode } else { DecorStyle::Ascii };
    Renderer::plain()
        .no_graphics(s.flag("no_graphics", false))
        .short_message(s.flag("short_message", false))
        .term_width(s.number("term_width").unwrap_or(140))
        .decor_style(decor)
        .anonymized_snippet_line_numbers(s.flag("anonymized_snippet", false))
        .anonymized_origin_line_numbers(s.flag("anonymized_origin", false))
        .hyperlink(s.flag("hyperlink", false))
        .show_line_feeds(s.flag("show_line_feeds", false))
        .context_lines(s.number("context_before").unwrap_or(0), s.number("context_after").unwrap_or(0))
        .wrap(s.flag("wrap", false))
        .mask_controls(s.flag("mask_controls", false))
        .label_lines(s.flag("label_lines", false))
}

/// The sheets of a case: the plain one where none is named.
pub fn sheets(case: &Json) -> Vec<Stylesheet> {
    match case.get("sheets") {
        Some(Json::List(sheets)) => sheets.iter().map(sheet).collect(),
        _ => vec![Stylesheet::plain()],
    }
}

fn sheet(sheet: &Json) -> Stylesheet {
    match sheet {
        Json::Text(name) if name == "default" => Stylesheet::styled(),
        _ => Stylesheet {
            error: style(sheet.get("error")),
            warning: style(sheet.get("warning")),
            info: style(sheet.get("info")),
            note: style(sheet.get("note")),
            help: style(sheet.get("help")),
            line_num: style(sheet.get("line_num")),
            emphasis: style(sheet.get("emphasis")),
            none: style(sheet.get("none")),
            context: style(sheet.get("context")),
            addition: style(sheet.get("addition")),
            removal: style(sheet.get("removal")),
        },
    }
}

fn style(style: Option<&Json>) -> Style {
    let Some(style) = style else {
        return Style::new();
    };
    let effects = style.list("effects").iter().fold(Effects::new(), |all, each| all | effect(each));
    Style::new().fg_color(style.get("fg").map(color)).bg_color(style.get("bg").map(color)).effects(effects)
}

fn effect(effect: &Json) -> Effects {
    let names = ["BOLD", "DIMMED", "ITALIC", "UNDERLINE", "BLINK", "INVERT", "HIDDEN", "STRIKETHROUGH"];
    let effects = [
        Effects::BOLD,
        Effects::DIMMED,
        Effects::ITALIC,
        Effects::UNDERLINE,
        Effects::BLINK,
        Effects::INVERT,
        Effects::HIDDEN,
        Effects::STRIKETHROUGH,
    ];
    let Json::Text(name) = effect else { panic!("the name of an effect") };
    effects[names.iter().position(|it| it == name).expect("an effect")]
}

fn color(color: &Json) -> Color {
    if let Json::Text(name) = color {
        return Color::Ansi(ansi(name));
    }
    if let Some(index) = color.number("ansi256") {
        return Ansi256Color(index as u8).into();
    }
    let rgb: Vec<u8> = color.list("rgb").iter().map(|it| if let Json::Number(n) = it { *n as u8 } else { 0 }).collect();
    RgbColor(rgb[0], rgb[1], rgb[2]).into()
}

fn ansi(name: &str) -> AnsiColor {
    match name {
        "Black" => AnsiColor::Black,
        "Red" => AnsiColor::Red,
        "Green" => AnsiColor::Green,
        "Yellow" => AnsiColor::Yellow,
        "Blue" => AnsiColor::Blue,
        "Magenta" => AnsiColor::Magenta,
        "Cyan" => AnsiColor::Cyan,
        "White" => AnsiColor::White,
        "BrightBlack" => AnsiColor::BrightBlack,
        "BrightRed" => AnsiColor::BrightRed,
        "BrightGreen" => AnsiColor::BrightGreen,
        "BrightYellow" => AnsiColor::BrightYellow,
        "BrightBlue" => AnsiColor::BrightBlue,
        "BrightMagenta" => AnsiColor::BrightMagenta,
        "BrightCyan" => AnsiColor::BrightCyan,
        "BrightWhite" => AnsiColor::BrightWhite,
        _ => panic!("there is no colour {name}"),
    }
}

/// The parts of a group, of which [`built`] makes it as a program would that has them at hand.
pub struct Parts<'a> {
    title: Option<Title<'a>>,
    level: Level<'a>,
    elements: Vec<Part<'a>>,
}

enum Part<'a> {
    Cause(Snippet<'a, Annotation<'a>>, Vec<Annotation<'a>>),
    Suggestion(Snippet<'a, Patch<'a>>, Vec<Patch<'a>>),
    Whole(Element<'a>),
}

/// The report of a case, group by group in parts.
pub fn parts(case: &Json) -> Vec<Parts<'_>> {
    case.list("groups").iter().map(group_parts).collect()
}

/// Builds a report, a call of the API for each part.
pub fn built<'a>(groups: &[Parts<'a>]) -> Vec<Group<'a>> {
    groups.iter().map(group).collect()
}

fn group<'a>(parts: &Parts<'a>) -> Group<'a> {
    let group = match &parts.title {
        Some(title) => Group::with_title(title.clone()),
        None => Group::with_level(parts.level.clone()),
    };
    parts.elements.iter().fold(group, with_part)
}

fn with_part<'a>(group: Group<'a>, part: &Part<'a>) -> Group<'a> {
    match part {
        Part::Cause(source, marks) => {
            group.element(marks.iter().fold(source.clone(), |snippet, mark| snippet.annotation(mark.clone())))
        }
        Part::Suggestion(source, patches) => {
            group.element(patches.iter().fold(source.clone(), |snippet, patch| snippet.patch(patch.clone())))
        }
        Part::Whole(element) => group.element(element.clone()),
    }
}

fn group_parts(g: &Json) -> Parts<'_> {
    let (title, level) = match g.get("title") {
        Some(Json::Object(_)) => (Some(title(g.get("title").expect("a title"))), Level::ERROR),
        _ => (None, level(g)),
    };
    Parts { title, level, elements: g.list("elements").iter().map(part).collect() }
}

fn title(t: &Json) -> Title<'_> {
    let text = t.text("text").expect("the text of a title");
    let mut title =
        if t.flag("primary", false) { level(t).primary_title(text) } else { level(t).secondary_title(text) };
    if let Some(id) = t.text("id") {
        title = title.id(id);
    }
    if let Some(url) = t.text("url") {
        title = title.id_url(url);
    }
    title
}

/// The level in the field of that name.
fn level(holder: &Json) -> Level<'_> {
    let l = holder.get("level").expect("a level");
    let level = match l.text("kind").expect("a kind of level") {
        "error" => Level::ERROR,
        "warning" => Level::WARNING,
        "info" => Level::INFO,
        "note" => Level::NOTE,
        _ => Level::HELP,
    };
    match l.get("name") {
        None => level,
        Some(Json::Text(name)) => level.with_name(name),
        Some(_) => level.no_name(),
    }
}

fn part(e: &Json) -> Part<'_> {
    if let Some(s) = e.get("cause") {
        return Part::Cause(snippet(s), s.list("annotations").iter().map(|it| annotation(it, s)).collect());
    }
    if let Some(s) = e.get("suggestion") {
        return Part::Suggestion(snippet(s), s.list("patches").iter().map(|it| patch(it, s)).collect());
    }
    Part::Whole(match (e.get("message"), e.get("origin")) {
        (Some(m), _) => message(m).into(),
        (None, Some(o)) => origin(o).into(),
        (None, None) => Padding.into(),
    })
}

fn message(m: &Json) -> Message<'_> {
    level(m).message(m.text("text").expect("the text of a message"))
}

fn snippet<T: Clone>(s: &Json) -> Snippet<'_, T> {
    Snippet::source(s.text("source").expect("a source"))
        .path(s.text("path"))
        .line_start(s.number("line_start").unwrap_or(1))
        .line_numbering(s.flag("line_numbering", true))
        .fold(s.flag("fold", true))
}

/// The span of a marker, in a snippet: by bytes, or by lines and columns.
fn span(marker: &Json, snippet: &Json) -> Range<usize> {
    let (Some(from), Some(to)) = (marker.get("from"), marker.get("to")) else {
        return marker.number("start").expect("a start")..marker.number("end").expect("an end");
    };
    let unit = match snippet.text("unit") {
        None | Some("char") => ColumnUnit::Chars,
        Some("utf16") => ColumnUnit::Utf16,
        Some(other) => panic!("columns aren't counted in {other} here"),
    };
    let source = snippet.text("source").expect("a source");
    let at = span_at(source, position(from), position(to), unit);
    assert!(!at.clamped, "{from:?} to {to:?} is in the source");
    at.span
}

fn position(place: &Json) -> Position {
    Position { line: place.number("line").expect("a line"), column: place.number("column").expect("a column") }
}

fn annotation<'a>(a: &'a Json, snippet: &Json) -> Annotation<'a> {
    let kind = match a.text("kind").expect("a kind of annotation") {
        "primary" => AnnotationKind::Primary,
        "context" => AnnotationKind::Context,
        _ => AnnotationKind::Visible,
    };
    kind.span(span(a, snippet)).label(a.text("label")).highlight_source(a.flag("highlight_source", false))
}

fn patch<'a>(p: &'a Json, snippet: &Json) -> Patch<'a> {
    Patch::new(span(p, snippet), p.text("text").expect("a text"))
}

fn origin(o: &Json) -> Origin<'_> {
    let mut origin = Origin::path(o.text("path").expect("a path"));
    if let Some(line) = o.number("line") {
        origin = origin.line(line);
    }
    if let Some(column) = o.number("column") {
        origin = origin.char_column(column);
    }
    origin
}
