"""Draws the first report of the README, in colours where it is printed on a terminal."""

import sys

import yazgult

SOURCE = 'fn main() {\n    let x: i32 = "one";\n}\n'

report = yazgult.Report()
snippet = report.group("error", "mismatched types", id="E0308").snippet(SOURCE, "src/main.rs")
snippet.mark(29, 34, "expected `i32`, found `&str`")
snippet.mark(23, 26, "expected due to this", kind="context")
report.print_report(sys.stdout)
