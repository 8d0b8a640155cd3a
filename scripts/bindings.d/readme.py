"""Tries the programs that pages show in C, Python and Rust."""

import os
import re
import subprocess
import sys
from pathlib import Path

from facts import ROOT, Trouble, run
from through_c import STRICT

# What the examples in Python and Rust draw, as the README has it.
FIRST_TEXT = """error[E0308]: mismatched types
 --> src/main.rs:2:18
  |
2 |     let x: i32 = "one";
  |            ---   ^^^^^ expected `i32`, found `&str`
  |            |
  |            expected due to this
"""


def block(page, language, word):
    """The one block of a page in a language that has this word."""
    text = (ROOT / page).read_text(encoding="utf-8")
    found = [it for named, it in re.findall(r"^```(\w+)\n(.*?)^```$", text, re.M | re.S) if named == language and word in it]
    if len(found) != 1:
        raise Trouble(f"{page}: {len(found)} blocks in {language} have {word}")
    return found[0]


# The programs that pages show: the page, the language, a word of the block, and the page and a word of the text that it prints.
SHOWN = (
    ("README.md", "c", "yazgult_report_new", "README.md", "never read"),
    ("README.md", "python", "import yazgult", "README.md", "never read"),
    ("README.md", "rust", "fn main() {", "README.md", "never read"),
    ("docs/BINDINGS.md", "c", "yazgult_report_new", "README.md", "never read"),
    ("docs/BINDINGS.md", "python", "import yazgult", "docs/BINDINGS.md", "nothing reads it"),
    ("docs/MOVING.md", "rust", "let report = &[", "docs/MOVING.md", "texts aren't read as numbers"),
)


def check(room, crate):
    """The programs that pages show in C, Python and Rust print what the pages say."""
    room = Path(room, "readme")
    room.mkdir()
    for at, (page, language, word, told, of_text) in enumerate(SHOWN):
        text, wanted = block(page, language, word), block(told, "text", of_text)
        words = program_of(room, crate, language, text, f"shown_{at}")
        ran = subprocess.run(words, capture_output=True, text=True, env={**os.environ, "PYTHONPATH": str(ROOT / "bindings" / "python")})
        if ran.returncode or ran.stdout + ran.stderr != wanted.rstrip("\n") + "\n":
            raise Trouble(f"the program of {page} in {language} prints {ran.stdout + ran.stderr!r}")
    print(f"bindings: {len(SHOWN)} programs in C, Python and Rust print what the pages say", flush=True)


def program_of(room, crate, language, text, name):
    """Makes a program of its text, and returns how it is run."""
    if language == "c":
        (room / f"{name}.c").write_text(text, encoding="utf-8")
        run(["cc", *STRICT, f"-I{ROOT}/bindings/c", "-o", room / name, room / f"{name}.c", room.parent / "libyazgult.a"])
        return [room / name]
    if language == "python":
        (room / f"{name}.py").write_text(text, encoding="utf-8")
        return [sys.executable, room / f"{name}.py"]
    # the name under which a line in Cargo.toml has the crate
    (crate.folder / "examples" / f"{name}.rs").write_text("use yazgult as annotate_snippets;\n" + text, encoding="utf-8")
    return [crate.examples() / name]
