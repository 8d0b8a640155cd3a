//! The calls of annotate-snippets 0.12.17, each with every kind of argument that it takes: what compiles here, a program may write. And
//! those that it hasn't, beside what they stand for.

use std::borrow::Cow;
use yazgult::renderer::*;
use yazgult::text::is_link_address;
use yazgult::{level, normalize_untrusted_str};
use yazgult::{
    Annotation, AnnotationKind, Element, Group, Level, Message, OptionCow, Origin, Padding, Patch, Renderer, Report,
    Snippet, SourceLines, Title,
};

/// A type of each kind that converts to a text: lent, owned, and either.
fn texts() -> (&'static str, String, Cow<'static, str>) {
    ("a", "b".to_owned(), Cow::Borrowed("c"))
}

#[test]
fn titles_and_messages_take_any_text() {
    let (lent, owned, either) = texts();
    let titles: [Title<'_>; 3] = [
        Level::ERROR.primary_title(lent).id(lent).id_url(owned.clone()),
        Level::WARNING.primary_title(owned.clone()).id(owned.clone()).id_url(either.clone()),
        level::INFO.secondary_title(either.clone()).id(either.clone()).id_url(lent),
    ];
    let messages: [Message<'_>; 4] = [
        level::NOTE.message(lent),
        level::HELP.message(owned.clone()),
        Level::NOTE.message(either.clone()),
        Level::HELP.message(&owned),
    ];
    let groups: Vec<Group<'_>> = titles.into_iter().map(|title| title.elements(messages.clone())).collect();
    let report: Report<'_> = &groups;
    assert_eq!(Renderer::plain().render(report).lines().next(), Some("error[a]: a"));
}

#[test]
fn names_labels_and_paths_take_what_may_be_missing() {
    let (lent, owned, either) = texts();
    let names: Vec<OptionCow<'_>> = vec![
        lent.into(),
        owned.clone().into(),
        (&owned).into(),
        either.clone().into(),
        (&either).into(),
        Some(lent).into(),
        Some(owned.clone()).into(),
        None::<Cow<'_, str>>.into(),
    ];
    let marks: Vec<Annotation<'_>> =
        names.into_iter().map(|name| AnnotationKind::Context.span(0..1).label(name)).collect();
    let named = Level::ERROR.with_name(&owned).with_name(None::<&str>).with_name(Some(either.clone())).no_name();
    let snippet: Snippet<'_, Annotation<'_>> = Snippet::source(&owned)
        .path(lent)
        .path(Some(&owned))
        .path(&either)
        .path(None::<String>)
        .annotation(AnnotationKind::Primary.span(0..1).label(owned.clone()).highlight_source(true))
        .annotations(marks);
    let group = Group::with_level(named).element(snippet).element(Padding);
    assert!(!group.is_empty());
    assert!(Renderer::plain().try_render(&[group]).is_ok());
}

#[test]
fn elements_are_made_of_each_kind() {
    let (lent, owned, either) = texts();
    let edited: Snippet<'_, Patch<'_>> = Snippet::source(either.clone())
        .line_start(7)
        .line_numbering(true)
        .fold(false)
        .patch(Patch::new(0..1, lent))
        .patches([Patch::new(1..1, owned.clone()), Patch::new(1..1, either.clone())]);
    let elements: Vec<Element<'_>> = vec![
        Level::NOTE.message("m").into(),
        Snippet::source(lent).annotation(AnnotationKind::Visible.span(0..1)).into(),
        edited.into(),
        Origin::path(&owned).line(1).char_column(2).into(),
        Origin::from(either.clone()).into(),
        Padding.into(),
    ];
    let group = Group::with_title(Level::ERROR.primary_title("t")).elements(elements.clone());
    for element in elements {
        match element {
            Element::Message(_) | Element::Cause(_) | Element::Suggestion(_) => {}
            Element::Origin(_) | Element::Padding(_) => {}
            _ => unreachable!("there is no other kind"),
        }
    }
    assert!(Renderer::styled().try_render(&[group]).is_ok());
}

#[test]
#[allow(deprecated)]
fn renderers_are_made_in_constants() {
    const PLAIN: Renderer = Renderer::plain()
        .no_graphics(false)
        .short_message(false)
        .term_width(DEFAULT_TERM_WIDTH)
        .decor_style(DecorStyle::Unicode)
        .anonymized_snippet_line_numbers(true)
        .anonymized_line_numbers(true)
        .anonymized_origin_line_numbers(true)
        .show_line_feeds(true)
        .context_lines(2, 1)
        .wrap(true)
        .mask_controls(true)
        .label_lines(true);
    const STYLED: Renderer = Renderer::styled()
        .error(DEFAULT_ERROR_STYLE)
        .warning(DEFAULT_WARNING_STYLE)
        .info(DEFAULT_INFO_STYLE)
        .note(DEFAULT_NOTE_STYLE)
        .help(DEFAULT_HELP_STYLE)
        .line_num(DEFAULT_LINE_NUM_STYLE)
        .emphasis(DEFAULT_EMPHASIS_STYLE)
        .none(DEFAULT_NONE_STYLE)
        .context(DEFAULT_CONTEXT_STYLE)
        .addition(DEFAULT_ADDITION_STYLE)
        .removal(DEFAULT_REMOVAL_STYLE)
        .hyperlink(true);
    let report = &[Group::with_title(Level::ERROR.primary_title("t"))];
    assert_eq!(PLAIN.render(report), "error: t");
    assert_eq!(STYLED.render(report), Renderer::styled().render(report));
    assert_eq!(normalize_untrusted_str("a\tb"), "a    b");
}

#[test]
fn levels_are_ordered_by_their_names_and_then_as_they_are_severe() {
    assert!(Level::ERROR < Level::WARNING && Level::NOTE < Level::HELP);
    assert!(Level::HELP < Level::ERROR.no_name() && Level::HELP.no_name() < Level::ERROR.with_name("a"));
}

#[test]
fn a_kept_source_is_drawn_as_its_text() {
    let source = "a\nb\n";
    let lines = SourceLines::new(source.to_owned());
    let drawn = |snippet: Snippet<'_, Annotation<'static>>| {
        let snippet = snippet.path("a.rs").annotation(AnnotationKind::Primary.span(2..3).label("here"));
        Renderer::plain().render(&[Level::ERROR.primary_title("t").element(snippet)])
    };
    assert_eq!(drawn(Snippet::indexed(&lines)), drawn(Snippet::source(source)));
    assert_eq!(format!("{lines:?}"), format!("{source:?}"));
    let edited: Snippet<'_, Patch<'_>> = Snippet::indexed(&lines).patch(Patch::new(0..1, "b"));
    assert!(Renderer::plain().try_render(&[Level::HELP.secondary_title("t").element(edited)]).is_ok());
}

#[test]
fn html_is_of_the_graphic_form() {
    let snippet = Snippet::source("ab").annotation(AnnotationKind::Primary.span(0..1));
    let report = &[Level::ERROR.primary_title("t").element(snippet)];
    let page = Renderer::plain().render_html(report).expect("it is drawn");
    assert!(page.starts_with("<span class=\"snippet-error\">error</span>"));
    assert_eq!(Renderer::styled().short_message(true).no_graphics(true).render_html(report), Ok(page));
    assert_eq!(Renderer::plain().short_message(true).render_html(&[]), Ok(String::new()));
    let wrong = Snippet::source("ab").annotation(AnnotationKind::Primary.span(0..4));
    let refused = Renderer::plain().render_html(&[Level::ERROR.primary_title("t").element(wrong)]);
    assert_eq!(refused, Err(RenderError::SpanPastEnd { group: 0, element: 0, marker: 0 }));
}

#[test]
fn an_article_has_a_heading_a_drawing_and_words() {
    let snippet = Snippet::source("a & b").annotation(AnnotationKind::Primary.span(0..1).label("<here>"));
    let title = Level::ERROR.primary_title("e").id("E1").id_url("https://a.example/E1");
    let report = &[title.element(snippet)];
    let drawing = Renderer::plain().hyperlink(false).render_html(report).unwrap();
    let words = Renderer::plain().no_graphics(true).hyperlink(false).render(report);
    let escaped = words.replace('&', "&amp;").replace('<', "&lt;").replace('>', "&gt;");
    let article = |heading| format!("<h2>{heading}</h2>\n<pre aria-hidden=\"true\">\n{drawing}</pre>\n<pre class=\"snippet-text\">\n{escaped}</pre>");
    let linked = Renderer::styled().short_message(true).render_html_page(report);
    assert_eq!(linked, Ok(article("error[<a href=\"https://a.example/E1\">E1</a>]: e")));
    assert_eq!(Renderer::plain().hyperlink(false).render_html_page(report), Ok(article("error[E1]: e")));
}

#[test]
fn markdown_has_the_plain_text_between_fences() {
    let snippet = Snippet::source("a``b").annotation(AnnotationKind::Primary.span(0..1));
    let report = &[Level::ERROR.primary_title("`t`").element(snippet)];
    let text = Renderer::plain().render(report);
    assert_eq!(Renderer::styled().render_markdown(report), Ok(format!("**error\\: \\`t\\`**\n\n```\n{text}\n```")));
    assert_eq!(Renderer::plain().short_message(true).render_markdown(&[]), Err(RenderError::NoGroup));
}

#[test]
fn addresses_of_the_web_and_of_mail_may_be_links() {
    for address in ["http:", "HTTPS://a", "mailto:a@b.example", "https://a.example/?x&y#\"'<>"] {
        assert!(is_link_address(address), "{address:?}");
    }
    for address in
        ["", "http", "javascript:f()", " https://a", "https://a b", "https://a\n", "https://a\u{7f}", "https://é", "é"]
    {
        assert!(!is_link_address(address), "{address:?}");
    }
}

#[test]
fn a_text_has_room_for_twice_its_bytes_at_most() {
    for lines in [1, 10, 1000, 40_000] {
        let source = "let x = 1;\n".repeat(lines);
        for marks in [1, lines.min(1000)] {
            let marks = (0..marks).map(|line| AnnotationKind::Primary.span(11 * line + 4..11 * line + 5));
            let report = [Level::ERROR.primary_title("t").element(Snippet::source(&source).annotations(marks))];
            let text = Renderer::plain().render(&report);
            assert!(text.capacity() <= 2 * text.len(), "{} bytes in room for {}", text.len(), text.capacity());
        }
    }
}
