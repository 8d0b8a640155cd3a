//! A report as a line of JSON, as `docs/REPORTS.md` has it. It is written for what the form as bytes doesn't say: a report as HTML, as an
//! article of a page and in Markdown.

use crate::grow::{put, reserve, Written};
use crate::level::{Level, Name, Severity};
use crate::renderer::{DecorStyle, RenderError, Renderer};
use crate::snippet::{Annotation, AnnotationKind, Element, Group, Id, Message, Origin, Patch, Snippet, Title};
use std::ops::Range;

/// The line of a report that is to be drawn by this renderer in a form: `html`, `html_page` or `markdown`.
pub(crate) fn line_for(form: &str, renderer: &Renderer, groups: &[Group<'_>]) -> Result<Vec<u8>, RenderError> {
    let mut out = Vec::new();
    reserve(1024, &mut out)?;
    raw("{\"id\":\"\",\"", &mut out)?;
    raw(form, &mut out)?;
    raw("\":true,\"settings\":", &mut out)?;
    settings(renderer, &mut out)?;
    raw(",\"groups\":", &mut out)?;
    list(groups, group, &mut out)?;
    raw("}", &mut out)?;
    Ok(out)
}

/// Appends a text that is JSON already.
fn raw(json: &str, out: &mut Vec<u8>) -> Written {
    put(json.as_bytes(), out)
}

fn number(number: usize, out: &mut Vec<u8>) -> Written {
    let mut digits = [0; 20];
    let mut at = digits.len();
    let mut left = number;
    loop {
        at -= 1;
        digits[at] = b'0' + (left % 10) as u8;
        left /= 10;
        if left == 0 {
            return put(&digits[at..], out);
        }
    }
}

fn text(text: &str, out: &mut Vec<u8>) -> Written {
    let must_escape = |byte: &u8| matches!(byte, b'"' | b'\\' | 0..=0x1f);
    let mut rest = text.as_bytes();
    raw("\"", out)?;
    while let Some(at) = rest.iter().position(must_escape) {
        put(&rest[..at], out)?;
        escape(rest[at], out)?;
        rest = &rest[at + 1..];
    }
    put(rest, out)?;
    raw("\"", out)
}

fn escape(byte: u8, out: &mut Vec<u8>) -> Written {
    let digit = |number: u8| b"0123456789abcdef"[usize::from(number)];
    put(&[b'\\', b'u', b'0', b'0', digit(byte >> 4), digit(byte & 15)], out)
}

fn list<T>(values: &[T], write: fn(&T, &mut Vec<u8>) -> Written, out: &mut Vec<u8>) -> Written {
    raw("[", out)?;
    for (at, value) in values.iter().enumerate() {
        raw(if at == 0 { "" } else { "," }, out)?;
        write(value, out)?;
    }
    raw("]", out)
}

/// The name of a field that isn't the first of its object, before its value.
fn name(name: &str, out: &mut Vec<u8>) -> Written {
    raw(",\"", out)?;
    raw(name, out)?;
    raw("\":", out)
}

fn flag_field(field: &str, value: bool, out: &mut Vec<u8>) -> Written {
    name(field, out)?;
    raw(if value { "true" } else { "false" }, out)
}

fn number_field(field: &str, value: usize, out: &mut Vec<u8>) -> Written {
    name(field, out)?;
    number(value, out)
}

fn text_field(field: &str, value: &str, out: &mut Vec<u8>) -> Written {
    name(field, out)?;
    text(value, out)
}

/// A field that is left out where it has no value.
fn optional<T>(
    value: Option<T>,
    field: &str,
    write: fn(&str, T, &mut Vec<u8>) -> Written,
    out: &mut Vec<u8>,
) -> Written {
    value.map_or(Ok(()), |value| write(field, value, out))
}

/// Those settings that the graphic form looks at, which HTML is made of.
fn settings(r: &Renderer, out: &mut Vec<u8>) -> Written {
    raw("{\"term_width\":", out)?;
    number(r.term_width, out)?;
    flag_field("short_message", r.short_message, out)?;
    flag_field("no_graphics", r.no_graphics, out)?;
    flag_field("unicode", r.decor_style == DecorStyle::Unicode, out)?;
    flag_field("anonymized_snippet", r.anonymized_snippet_line_numbers, out)?;
    flag_field("anonymized_origin", r.anonymized_origin_line_numbers, out)?;
    flag_field("hyperlink", r.hyperlink, out)?;
    flag_field("show_line_feeds", r.show_line_feeds, out)?;
    number_field("context_before", r.context_before, out)?;
    number_field("context_after", r.context_after, out)?;
    flag_field("wrap", r.wrap, out)?;
    flag_field("mask_controls", r.mask_controls, out)?;
    flag_field("label_lines", r.label_lines, out)?;
    raw("}", out)
}

fn group(g: &Group<'_>, out: &mut Vec<u8>) -> Written {
    raw("{\"title\":", out)?;
    match &g.title {
        Some(it) => title(it, out)?,
        None => raw("null", out)?,
    }
    raw(",\"level\":{\"kind\":", out)?;
    text(kind_of(g.level.kind), out)?;
    raw("},\"elements\":", out)?;
    list(&g.elements, element, out)?;
    raw("}", out)
}

fn title(t: &Title<'_>, out: &mut Vec<u8>) -> Written {
    raw("{\"level\":", out)?;
    level(&t.level, out)?;
    text_field("text", &t.text, out)?;
    flag_field("primary", !t.allows_styling, out)?;
    id(t.id.as_ref(), out)?;
    raw("}", out)
}

fn id(id: Option<&Id<'_>>, out: &mut Vec<u8>) -> Written {
    let Some(id) = id else {
        return Ok(());
    };
    optional(id.id.as_deref(), "id", text_field, out)?;
    optional(id.url.as_deref(), "url", text_field, out)
}

fn level(l: &Level<'_>, out: &mut Vec<u8>) -> Written {
    raw("{\"kind\":", out)?;
    text(kind_of(l.kind), out)?;
    match &l.name {
        Name::Standard => {}
        Name::Hidden => raw(",\"name\":null", out)?,
        Name::Own(own) => text_field("name", own, out)?,
    }
    raw("}", out)
}

fn kind_of(severity: Severity) -> &'static str {
    match severity {
        Severity::Error => "error",
        Severity::Warning => "warning",
        Severity::Info => "info",
        Severity::Note => "note",
        Severity::Help => "help",
    }
}

fn element(e: &Element<'_>, out: &mut Vec<u8>) -> Written {
    match e {
        Element::Message(m) => {
            raw("{\"message\":", out)?;
            message(m, out)?;
        }
        Element::Cause(s) => {
            raw("{\"cause\":", out)?;
            snippet(s, "annotations", annotation, out)?;
        }
        Element::Suggestion(s) => {
            raw("{\"suggestion\":", out)?;
            snippet(s, "patches", patch, out)?;
        }
        Element::Origin(o) => {
            raw("{\"origin\":", out)?;
            origin(o, out)?;
        }
        Element::Padding(_) => raw("{\"padding\":{}", out)?,
    }
    raw("}", out)
}

fn message(m: &Message<'_>, out: &mut Vec<u8>) -> Written {
    raw("{\"level\":", out)?;
    level(&m.level, out)?;
    text_field("text", &m.text, out)?;
    raw("}", out)
}

fn snippet<T>(
    s: &Snippet<'_, T>,
    markers: &str,
    marker: fn(&T, &mut Vec<u8>) -> Written,
    out: &mut Vec<u8>,
) -> Written {
    raw("{\"source\":", out)?;
    text(&s.source, out)?;
    optional(s.path.as_deref(), "path", text_field, out)?;
    number_field("line_start", s.line_start, out)?;
    flag_field("line_numbering", s.line_numbering, out)?;
    flag_field("fold", s.fold, out)?;
    name(markers, out)?;
    list(&s.markers, marker, out)?;
    raw("}", out)
}

/// The first fields of a marker.
fn span(s: &Range<usize>, out: &mut Vec<u8>) -> Written {
    raw("{\"start\":", out)?;
    number(s.start, out)?;
    number_field("end", s.end, out)
}

fn annotation(a: &Annotation<'_>, out: &mut Vec<u8>) -> Written {
    let kind = match a.kind {
        AnnotationKind::Primary => "primary",
        AnnotationKind::Context => "context",
        AnnotationKind::Visible => "visible",
    };
    span(&a.span, out)?;
    text_field("kind", kind, out)?;
    optional(a.label.as_deref(), "label", text_field, out)?;
    flag_field("highlight_source", a.highlight_source, out)?;
    raw("}", out)
}

fn patch(p: &Patch<'_>, out: &mut Vec<u8>) -> Written {
    span(&p.span, out)?;
    text_field("text", &p.replacement, out)?;
    raw("}", out)
}

fn origin(o: &Origin<'_>, out: &mut Vec<u8>) -> Written {
    raw("{\"path\":", out)?;
    text(&o.path, out)?;
    optional(o.line, "line", number_field, out)?;
    optional(o.char_column, "column", number_field, out)?;
    raw("}", out)
}
