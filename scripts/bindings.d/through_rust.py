"""Tries the crate for Rust: cases, its examples, its tests, its documentation and its package."""

import json
import os
import re
import shutil
from pathlib import Path

import readme
from cases import cases_by_json, places
from facts import ROOT, Trouble, run

HOME = ROOT / "bindings" / "rust"
# The stylesheets for HTML: a file of the Rust crate for each, and the constant of the library.
STYLESHEETS = ROOT / "crates" / "annotate_snippets" / "src" / "renderer" / "html_stylesheet.rt"
HTML_STYLESHEETS = {"html_stylesheet.css": "HTML_STYLESHEET", "html_page_stylesheet.css": "HTML_PAGE_STYLESHEET"}


class Crate:
    """The Rust crate, in a folder where nothing else is built."""

    def __init__(self, room, anstyle):
        self.room, self.folder = Path(room), Path(room, "rust")
        shutil.copytree(HOME, self.folder, ignore=shutil.ignore_patterns("target", "Cargo.lock"))
        self.patch = f"patch.crates-io.anstyle.path={json.dumps(str(anstyle))}"

    def cargo(self, *words):
        env = {**os.environ, "YAZGULT_LIB_DIR": str(self.room), "CARGO_TARGET_DIR": f"{self.room}/target"}
        return run(["cargo", *words, "--offline", "--config", self.patch], cwd=self.folder, env=env)

    def examples(self):
        """Builds the examples, and returns the folder in which they are."""
        self.cargo("build", "--release", "--examples", "-q")
        return self.room / "target" / "release" / "examples"


def check(room, anstyle, yazgult, pairs):
    check_stylesheets()
    crate = Crate(room, anstyle)
    made = crate.examples()
    if run([made / "readme"]).decode() != readme.FIRST_TEXT:
        raise Trouble("the example in Rust draws another text than the README has")
    compare(made / "cases", room, "Rust", pairs + cases_by_json())
    compare(made / "cases", room, "Rust, by lines and columns", places())
    as_html = [{**case, "html": True} for case, _ in pairs]
    answers = [json.loads(yazgult.answer_json(json.dumps(case, ensure_ascii=False))) for case in as_html]
    compare(made / "cases", room, "Rust, as HTML, beside the library's JSON", list(zip(as_html, answers)))
    crate.cargo("test", "--release", "-q")
    crate.cargo("doc", "--no-deps", "-q")
    crate.cargo("package", "--allow-dirty", "-q")
    readme.check(room, crate)


def check_stylesheets():
    """Compares the stylesheets for HTML that the Rust crate has with the library's."""
    for name, constant in HTML_STYLESHEETS.items():
        text = (HOME / "src" / "renderer" / name).read_text()
        if not text or f'pub const {constant}: &str = "{text}";' not in STYLESHEETS.read_text():
            raise Trouble(f"{name} and {STYLESHEETS.relative_to(ROOT)} have different stylesheets")


def compare(program, room, what, pairs):
    """Has the example `cases` compare what becomes of cases with what is expected."""
    for name, at in (("cases", 0), ("expected", 1)):
        lines = "".join(json.dumps(it[at], ensure_ascii=False) + "\n" for it in pairs)
        Path(room, f"{name}.jsonl").write_text(lines)
    said = run([program, "check", f"{room}/expected.jsonl", f"{room}/cases.jsonl"]).decode().strip()
    if said.splitlines()[-1] != f"{len(pairs)} passed, 0 failed" or not pairs:
        raise Trouble(f"{what}: {said[-300:]}")
    print(f"bindings: {what}: {len(pairs)} cases as expected", flush=True)
