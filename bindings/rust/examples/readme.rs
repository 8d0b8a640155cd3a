//! Draws the first report of the README.

use yazgult::{AnnotationKind, Level, Renderer, Snippet};

fn main() {
    let source = "fn main() {\n    let x: i32 = \"one\";\n}\n";
    let snippet = Snippet::source(source)
        .path("src/main.rs")
        .annotation(AnnotationKind::Primary.span(29..34).label("expected `i32`, found `&str`"))
        .annotation(AnnotationKind::Context.span(23..26).label("expected due to this"));
    let report = &[Level::ERROR.primary_title("mismatched types").id("E0308").element(snippet)];
    println!("{}", Renderer::plain().render(report));
}
