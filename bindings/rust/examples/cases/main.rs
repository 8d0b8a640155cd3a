//! Draws cases, which are reports as lines of JSON, through the API.
//!
//! - `cases check EXPECTED FILE ..` compares what becomes of each case with what stands in the same line of EXPECTED.
//! - `cases draw TIMES FILE` builds and draws the reports of a file so many times, each under its own sheets, and prints how many
//!   bytes the texts of all rounds have and how long one round took.
//! - `cases source TIMES LINES text|kept` draws a report about one line of a source of so many, handed over each time or kept.

mod json;
mod report;

use json::Json;
use report::Parts;
use std::process::ExitCode;
use std::time::Instant;
use yazgult::renderer::{RenderError, Stylesheet};
use yazgult::{Annotation, AnnotationKind, Group, Level, Renderer, Snippet, SourceLines};

fn main() -> ExitCode {
    let words: Vec<String> = std::env::args().skip(1).collect();
    match words.iter().map(String::as_str).collect::<Vec<_>>().as_slice() {
        ["check", files @ ..] if files.len() % 2 == 0 => check(files),
        ["draw", times, file] => draw(number(times), file),
        ["source", times, lines, "text"] => draw_source(number(times), number(lines), false),
        ["source", times, lines, "kept"] => draw_source(number(times), number(lines), true),
        _ => {
            eprintln!("usage: cases check EXPECTED FILE [EXPECTED FILE ..]");
            eprintln!("       cases draw TIMES FILE");
            eprintln!("       cases source TIMES LINES text|kept");
            ExitCode::from(2)
        }
    }
}

fn number(word: &str) -> usize {
    word.parse().unwrap_or_else(|error| panic!("{word}: {error}"))
}

/// The values that the lines of a file hold.
fn lines(file: &str) -> Vec<Json> {
    let text = std::fs::read_to_string(file).unwrap_or_else(|error| panic!("{file}: {error}"));
    text.lines().map(Json::read).collect()
}

fn check(files: &[&str]) -> ExitCode {
    let (mut passed, mut failed) = (0, 0);
    for pair in files.chunks(2) {
        let (expected, cases) = (lines(pair[0]), lines(pair[1]));
        assert_eq!(expected.len(), cases.len(), "{} and {} have as many lines", pair[0], pair[1]);
        for (expected, case) in expected.iter().zip(&cases) {
            if is_met(expected, case) {
                passed += 1;
            } else {
                failed += 1;
                println!("{}: {:?} differs", pair[1], case.text("id"));
            }
        }
    }
    println!("{passed} passed, {failed} failed");
    ExitCode::from(u8::from(failed > 0))
}

/// What becomes of a case: a text under each of its sheets, or its HTML.
fn outcome(case: &Json) -> Result<Vec<String>, RenderError> {
    let (renderer, groups) = (report::renderer(case), report::built(&report::parts(case)));
    if case.flag("html", false) {
        return Ok(vec![renderer.render_html(&groups)?]);
    }
    if case.flag("html_page", false) {
        return Ok(vec![renderer.render_html_page(&groups)?]);
    }
    if case.flag("markdown", false) {
        return Ok(vec![renderer.render_markdown(&groups)?]);
    }
    renderer.render_sheets(&groups, &report::sheets(case))
}

/// Whether what is expected becomes of a case.
fn is_met(expected: &Json, case: &Json) -> bool {
    match outcome(case) {
        Ok(texts) => {
            let wanted =
                expected.list("ok").iter().map(|it| if let Json::Text(text) = it { text.as_str() } else { "" });
            expected.get("ok").is_some() && wanted.eq(texts.iter().map(String::as_str))
        }
        Err(refusal) => {
            let debug = format!("{refusal:?}");
            let name = debug.split([' ', '{']).next();
            expected.text("refused") == name && expected.text("text") == Some(&refusal.to_string())
        }
    }
}

fn draw(times: usize, file: &str) -> ExitCode {
    let cases = lines(file);
    let given: Vec<_> = cases.iter().map(|it| (report::renderer(it), report::sheets(it), report::parts(it))).collect();
    let mut length = 0;
    let start = Instant::now();
    for _ in 0..times {
        for (renderer, sheets, parts) in &given {
            length += drawn(renderer, sheets, parts);
        }
    }
    let each = start.elapsed().as_nanos() / times.max(1) as u128;
    println!("{length} bytes, {each} ns a round");
    ExitCode::SUCCESS
}

/// Builds and draws the report of these parts, and returns how many bytes its texts have.
#[inline(never)]
fn drawn(renderer: &Renderer, sheets: &[Stylesheet], parts: &[Parts<'_>]) -> usize {
    let groups = report::built(parts);
    let texts = renderer.render_sheets(&groups, sheets).unwrap_or_else(|refusal| panic!("{refusal}"));
    texts.iter().map(String::len).sum()
}

fn draw_source(times: usize, lines: usize, is_kept: bool) -> ExitCode {
    let text = "let value = of(x+y);\n".repeat(lines);
    let kept = SourceLines::new(text.as_str());
    let middle = text.len() / 2;
    let mut length = 0;
    for _ in 0..times {
        let snippet: Snippet<'_, Annotation<'_>> =
            if is_kept { Snippet::indexed(&kept) } else { Snippet::source(text.as_str()) };
        let marked = snippet.annotation(AnnotationKind::Primary.span(middle..middle + 1));
        length += Renderer::plain().render(&[Group::with_level(Level::ERROR).element(marked)]).len();
    }
    println!("{length} bytes");
    ExitCode::SUCCESS
}
