//! The form of a report as bytes, as `docs/BINDINGS.md` has it.

use crate::grow::{self, reserve, Written};
use crate::level::{Level, Name};
use crate::renderer::{Color, DecorStyle, Effects, RenderError, Renderer, Style, Stylesheet};
use crate::snippet::{Annotation, Element, Group, Id, Message, Origin, Patch, Shared, Snippet, Title};
use std::ops::Range;

/// The version of the form.
const VERSION: u8 = 3;

/// The kind of the later setting `mask_controls`.
const MASK_CONTROLS: u8 = 0;

/// The kind of the later setting `label_lines`.
const LABEL_LINES: u8 = 1;

/// The bytes of a report, and the kept sources that it names, in the order of their numbers.
pub(crate) struct Out {
    pub(crate) bytes: Vec<u8>,
    pub(crate) kept: Vec<Shared>,
}

/// The bytes of a report, drawn by this renderer under these sheets.
pub(crate) fn report(renderer: &Renderer, sheets: &[Stylesheet], groups: &[Group<'_>]) -> Result<Out, RenderError> {
    let mut out = Out { bytes: Vec::new(), kept: Vec::new() };
    reserve(1024, &mut out.bytes)?;
    byte(VERSION, &mut out)?;
    settings(renderer, &mut out)?;
    list(sheets, sheet, &mut out)?;
    list(groups, group, &mut out)?;
    Ok(out)
}

#[inline(always)]
fn put(bytes: &[u8], out: &mut Out) -> Written {
    grow::put(bytes, &mut out.bytes)
}

#[inline(always)]
fn byte(byte: impl Into<u8>, out: &mut Out) -> Written {
    put(&[byte.into()], out)
}

#[inline(always)]
fn number(number: usize, out: &mut Out) -> Written {
    put(&(number as u64).to_le_bytes(), out)
}

/// How many bytes of a text are copied at once: what a vector copy takes, and not yet a copy by the string instructions of the
/// processor, which begins slowly.
const PIECE: usize = 1024;

fn text(text: &str, out: &mut Out) -> Written {
    number(text.len(), out)?;
    reserve(text.len(), &mut out.bytes)?;
    for piece in text.as_bytes().chunks(PIECE) {
        out.bytes.extend_from_slice(piece);
    }
    Ok(())
}

fn option<T: ?Sized>(value: Option<&T>, write: fn(&T, &mut Out) -> Written, out: &mut Out) -> Written {
    byte(value.is_some(), out)?;
    value.map_or(Ok(()), |value| write(value, out))
}

fn list<T>(values: &[T], write: fn(&T, &mut Out) -> Written, out: &mut Out) -> Written {
    number(values.len(), out)?;
    values.iter().try_for_each(|value| write(value, out))
}

fn settings(r: &Renderer, out: &mut Out) -> Written {
    byte(r.anonymized_origin_line_numbers, out)?;
    byte(r.anonymized_snippet_line_numbers, out)?;
    number(r.term_width, out)?;
    let decor = match r.decor_style {
        DecorStyle::Ascii => 0,
        DecorStyle::Unicode => 1,
    };
    byte(decor, out)?;
    put(&[r.hyperlink, r.short_message, r.no_graphics, r.show_line_feeds].map(u8::from), out)?;
    number(r.context_before, out)?;
    number(r.context_after, out)?;
    byte(r.wrap, out)?;
    let switches: &[(u8, usize)] = match (r.mask_controls, r.label_lines) {
        (false, false) => &[],
        (true, false) => &[(MASK_CONTROLS, 1)],
        (false, true) => &[(LABEL_LINES, 1)],
        (true, true) => &[(MASK_CONTROLS, 1), (LABEL_LINES, 1)],
    };
    list(switches, later, out)
}

fn later(&(kind, value): &(u8, usize), out: &mut Out) -> Written {
    byte(kind, out)?;
    number(value, out)
}

/// The bytes of the default sheet, a row for each style.
#[rustfmt::skip]
const DEFAULT_SHEET: [u8; 128] = [
    1, 0, 9, 0, 1, 0, 0, 0, 0, 0, 0, 0, // error
    1, 0, 3, 0, 1, 0, 0, 0, 0, 0, 0, 0, // warning
    1, 0, 12, 0, 1, 0, 0, 0, 0, 0, 0, 0, // info
    1, 0, 10, 0, 1, 0, 0, 0, 0, 0, 0, 0, // note
    1, 0, 14, 0, 1, 0, 0, 0, 0, 0, 0, 0, // help
    1, 0, 12, 0, 1, 0, 0, 0, 0, 0, 0, 0, // line_num
    0, 0, 1, 0, 0, 0, 0, 0, 0, 0, // emphasis
    0, 0, 0, 0, 0, 0, 0, 0, 0, 0, // none
    1, 0, 12, 0, 1, 0, 0, 0, 0, 0, 0, 0, // context
    1, 0, 10, 0, 0, 0, 0, 0, 0, 0, 0, 0, // addition
    1, 0, 9, 0, 0, 0, 0, 0, 0, 0, 0, 0, // removal
];

fn sheet(s: &Stylesheet, out: &mut Out) -> Written {
    if *s == Stylesheet::styled() {
        return put(&DEFAULT_SHEET, out);
    }
    styles(s, out)
}

fn styles(s: &Stylesheet, out: &mut Out) -> Written {
    let levels = [s.error, s.warning, s.info, s.note, s.help];
    let parts = [s.line_num, s.emphasis, s.none, s.context, s.addition, s.removal];
    levels.iter().chain(&parts).try_for_each(|each| style(each, out))
}

/// The effects that the library draws, in the order of the form.
const EFFECTS: [Effects; 8] = [
    Effects::BOLD,
    Effects::DIMMED,
    Effects::ITALIC,
    Effects::UNDERLINE,
    Effects::BLINK,
    Effects::INVERT,
    Effects::HIDDEN,
    Effects::STRIKETHROUGH,
];

fn style(style: &Style, out: &mut Out) -> Written {
    // most styles of most sheets: neither colour, and none of the effects
    if style.is_plain() {
        return put(&[0; 2 + EFFECTS.len()], out);
    }
    option(style.get_fg_color().as_ref(), color, out)?;
    option(style.get_bg_color().as_ref(), color, out)?;
    let effects = drawn_effects(style.get_effects());
    put(&EFFECTS.map(|effect| u8::from(effects.contains(effect))), out)
}

/// The effects that the library draws for these: it has one kind of underlines.
fn drawn_effects(effects: Effects) -> Effects {
    let others =
        Effects::DOUBLE_UNDERLINE | Effects::CURLY_UNDERLINE | Effects::DOTTED_UNDERLINE | Effects::DASHED_UNDERLINE;
    let rest = effects - others;
    if rest == effects {
        rest
    } else {
        rest | Effects::UNDERLINE
    }
}

fn color(color: &Color, out: &mut Out) -> Written {
    match color {
        Color::Ansi(color) => put(&[0, *color as u8], out),
        Color::Ansi256(color) => put(&[1, color.0], out),
        Color::Rgb(color) => put(&[2, color.0, color.1, color.2], out),
    }
}

fn group(g: &Group<'_>, out: &mut Out) -> Written {
    byte(g.level.kind as u8, out)?;
    option(g.title.as_ref(), title, out)?;
    list(&g.elements, element, out)
}

fn title(t: &Title<'_>, out: &mut Out) -> Written {
    level(&t.level, out)?;
    option(t.id.as_ref(), id, out)?;
    text(&t.text, out)?;
    byte(t.allows_styling, out)
}

fn level(l: &Level<'_>, out: &mut Out) -> Written {
    match &l.name {
        Name::Standard => byte(0, out)?,
        Name::Hidden => byte(1, out)?,
        Name::Own(name) => {
            byte(2, out)?;
            text(name, out)?;
        }
    }
    byte(l.kind as u8, out)
}

fn id(i: &Id<'_>, out: &mut Out) -> Written {
    option(i.id.as_deref(), text, out)?;
    option(i.url.as_deref(), text, out)
}

fn element(e: &Element<'_>, out: &mut Out) -> Written {
    let kind = match e {
        Element::Message(_) => 0,
        Element::Cause(_) => 1,
        Element::Suggestion(_) => 2,
        Element::Origin(_) => 3,
        Element::Padding(_) => 4,
    };
    byte(kind, out)?;
    match e {
        Element::Message(m) => message(m, out),
        Element::Cause(s) => snippet(s, annotation, out),
        Element::Suggestion(s) => snippet(s, patch, out),
        Element::Origin(o) => origin(o, out),
        Element::Padding(_) => Ok(()),
    }
}

fn message(m: &Message<'_>, out: &mut Out) -> Written {
    level(&m.level, out)?;
    text(&m.text, out)
}

fn snippet<T>(s: &Snippet<'_, T>, marker: fn(&T, &mut Out) -> Written, out: &mut Out) -> Written {
    option(s.path.as_deref(), text, out)?;
    number(s.line_start, out)?;
    source(&s.source, s.kept.as_ref(), out)?;
    list(&s.markers, marker, out)?;
    byte(s.line_numbering, out)?;
    byte(s.fold, out)
}

/// A source: by its text, or, where it is kept, by the number that it has or gets.
fn source(given: &str, kept: Option<&Shared>, out: &mut Out) -> Written {
    let Some(kept) = kept else {
        byte(0, out)?;
        return text(given, out);
    };
    let known = out.kept.iter().position(|one| one.is(kept));
    let place = known.unwrap_or(out.kept.len());
    if known.is_none() {
        reserve(1, &mut out.kept)?;
        out.kept.push(kept.clone());
    }
    byte(1, out)?;
    number(place, out)
}

fn span(s: &Range<usize>, out: &mut Out) -> Written {
    number(s.start, out)?;
    number(s.end, out)
}

fn annotation(a: &Annotation<'_>, out: &mut Out) -> Written {
    span(&a.span, out)?;
    option(a.label.as_deref(), text, out)?;
    byte(a.kind as u8, out)?;
    byte(a.highlight_source, out)
}

fn patch(p: &Patch<'_>, out: &mut Out) -> Written {
    span(&p.span, out)?;
    text(&p.replacement, out)
}

fn origin(o: &Origin<'_>, out: &mut Out) -> Written {
    text(&o.path, out)?;
    let write = |n: &usize, out: &mut Out| number(*n, out);
    option(o.line.as_ref(), write, out)?;
    option(o.char_column.as_ref(), write, out)
}

#[cfg(test)]
mod tests {
    use super::*;

    #[test]
    fn default_sheet_has_its_bytes() {
        let mut out = Out { bytes: Vec::new(), kept: Vec::new() };
        assert!(styles(&Stylesheet::styled(), &mut out).is_ok());
        assert_eq!(out.bytes, DEFAULT_SHEET);
    }
}
