//! Where memory is refused, `try_render`, `render_sheets` and `render_html` say so, whichever request it is.

use std::alloc::{GlobalAlloc, Layout, System};
use std::cell::Cell;
use yazgult::renderer::{RenderError, Stylesheet};
use yazgult::{AnnotationKind, Group, Level, Patch, Renderer, Snippet};

/// Refuses a request of a thread, and each that follows.
struct Refusing;

thread_local! {
    /// How many requests of this thread are still met, where some are to be refused.
    static MET: Cell<Option<usize>> = const { Cell::new(None) };
}

// SAFETY: the system's allocator gives and takes all memory.
unsafe impl GlobalAlloc for Refusing {
    unsafe fn alloc(&self, layout: Layout) -> *mut u8 {
        match MET.with(Cell::get) {
            Some(0) => return std::ptr::null_mut(),
            met => MET.with(|it| it.set(met.map(|met| met - 1))),
        }
        System.alloc(layout)
    }

    unsafe fn dealloc(&self, memory: *mut u8, layout: Layout) {
        System.dealloc(memory, layout);
    }
}

#[global_allocator]
static ALLOCATOR: Refusing = Refusing;

/// What is answered where the first requests alone are met.
fn with_requests<T>(met: usize, draw: impl Fn() -> T) -> T {
    MET.with(|it| it.set(Some(met)));
    let answer = draw();
    MET.with(|it| it.set(None));
    answer
}

/// Refuses each request in turn, until none is refused; returns how many there are.
fn refuse_each<T: PartialEq + std::fmt::Debug>(draw: impl Fn() -> Result<T, RenderError>) -> usize {
    let ample = draw();
    assert!(ample.is_ok());
    let requests = (0..1000).find(|met| with_requests(*met, &draw).is_ok()).expect("it is drawn at last");
    for met in 0..requests {
        assert_eq!(with_requests(met, &draw), Err(RenderError::Memory));
    }
    assert_eq!(with_requests(requests, &draw), ample);
    requests
}

/// A report of one of everything, over a source of so many lines.
fn report(lines: usize) -> Vec<Group<'static>> {
    let source = "let x = 1;\n".repeat(lines);
    let mark = AnnotationKind::Primary.span(4..5).label("never read");
    let patch = Patch::new(4..5, "_x");
    vec![
        Level::ERROR
            .primary_title("unused variable")
            .id("E1")
            .element(Snippet::source(source.clone()).path("a.rs").annotation(mark)),
        Group::with_title(Level::HELP.with_name("hint").secondary_title("rename it"))
            .element(Snippet::source(source).patch(patch)),
    ]
}

#[test]
fn no_request_ends_the_program() {
    for lines in [1, 100, 10_000] {
        let report = report(lines);
        // the bytes of the report, which grow, and the answer's
        assert!(refuse_each(|| Renderer::styled().try_render(&report)) >= 2);
    }
}

#[test]
fn no_request_of_several_texts_ends_the_program() {
    let report = report(10);
    let sheets = [Stylesheet::plain(), Stylesheet::styled()];
    // the bytes of the report, the list, and each text in it
    assert!(refuse_each(|| Renderer::plain().render_sheets(&report, &sheets)) >= 4);
}

#[test]
fn no_text_has_room_for_more_than_twice_its_bytes() {
    let escapes = "\u{1b}".repeat(2000);
    for lines in [1, 100, 10_000] {
        let mut report = report(lines);
        report.push(Level::NOTE.secondary_title(escapes.as_str()).element(Level::NOTE.message("\"\\\n")));
        let renderer = Renderer::plain();
        let mut texts = renderer.render_sheets(&report, &[Stylesheet::plain(), Stylesheet::styled()]).unwrap();
        texts.push(renderer.render(&report));
        texts.push(renderer.render(&report[..2]));
        texts.push(renderer.render_html(&report).unwrap());
        texts.push(renderer.render_html_page(&report).unwrap());
        texts.push(renderer.render_markdown(&report).unwrap());
        assert!(texts.iter().all(|text| text.capacity() <= 2 * text.len()));
    }
}

#[test]
fn no_request_of_html_ends_the_program() {
    let report = report(100);
    // the line of the report, the answer, and the text in it
    assert!(refuse_each(|| Renderer::plain().render_html(&report)) >= 3);
}

#[test]
fn a_text_that_is_longer_than_there_is_room_is_drawn_once_more() {
    // each line takes a row with its number, which is more than the two bytes that it has here
    let source = "x\n".repeat(20_000);
    let mark = AnnotationKind::Primary.span(0..1);
    let snippet = Snippet::source(source).fold(false).annotation(mark);
    let report = [Level::ERROR.primary_title("a").element(snippet)];
    let text = Renderer::plain().render(&report);
    assert!(text.len() > 20_000 * 8);
    assert!(refuse_each(|| Renderer::plain().try_render(&report)) >= 3);
}
