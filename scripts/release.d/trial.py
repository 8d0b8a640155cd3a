"""Tries what a release hands out as who has nothing else would, and says of each part what came of it:

    python3 trial.py ROOM [HIDDEN ..]

ROOM is a folder with `dist` and, where the Rust crate asks for it, `anstyle`, a crate of that name; all that is made is made there. HIDDEN
are folders that are to be empty: those of the toolchain and of the clone. Nothing of the repository is read but what is in ROOM.
"""

import gzip
import json
import os
import re
import shutil
import subprocess
import sys
import tarfile
import zipfile
from pathlib import Path

SOURCE = "let x = 1;\n"
# What the first program of README.md draws.
EVERYDAY = """error: unused variable
 --> src/main.rs:1:5
  |
1 | let x = 1;
  |     ^ never read
"""
# What docs/TIDY.md shows.
TAB = """warning: tab
 --> a.rs:1:1
  |
1 |     y
  | ^^^^
  |
help: apply this
  |
1 |     y
  | ++++
"""
MARK = {"kind": "primary", "start": 4, "end": 5, "label": "never read"}
CAUSE = {"source": SOURCE, "path": "src/main.rs", "annotations": [MARK]}
TITLE = {"level": {"kind": "error"}, "text": "unused variable", "primary": True}
CASE = {"id": "a", "groups": [{"title": TITLE, "elements": [{"cause": CAUSE}]}]}
PLACE = {"file_name": "src/main.rs", "byte_start": 4, "byte_end": 5, "line_start": 1, "line_end": 1, "column_start": 5, "column_end": 6}
PLACE |= {"is_primary": True, "label": "never read", "text": [{"text": "let x = 1;", "highlight_start": 5, "highlight_end": 6}]}
PLACE |= {"suggested_replacement": None, "suggestion_applicability": None, "expansion": None}
MESSAGE = {"$message_type": "diagnostic", "message": "unused variable", "code": None, "level": "error", "spans": [PLACE], "children": [], "rendered": None}
RUST = """use annotate_snippets::{AnnotationKind, Level, Renderer, Snippet};
fn main() {
    let mark = AnnotationKind::Primary.span(4..5).label("never read");
    let snippet = Snippet::source("let x = 1;\\n").path("src/main.rs").annotation(mark);
    println!("{}", Renderer::plain().render(&[Level::ERROR.primary_title("unused variable").element(snippet)]));
}
"""
C = """#include <yazgult.h>
#include <stdio.h>
int main(void) {
    static uint8_t input[65536], output[65536];
    size_t length = fread(input, 1, sizeof input, stdin);
    length = yazgult_draw_json(input, length, output, sizeof output);
    fwrite(output, 1, length < sizeof output ? length : sizeof output, stdout);
    return 0;
}
"""
PYTHON = f"import yazgult\nprint(yazgult.render({CASE['groups']!r}))\n"
ROOM = Path(sys.argv[1]).resolve()
DIST = ROOM / "dist"


def tell(what):
    print(f"release-tests: {what}", flush=True)


def fail(what):
    sys.exit(f"release-tests: {what}")


def ran(words, status=0, **how):
    """Runs a command that ends with a status, and returns what it prints."""
    env = {**os.environ, **how.pop("env", {})}
    done = subprocess.run([str(it) for it in words], stdout=subprocess.PIPE, stderr=subprocess.PIPE, env=env, **how)
    if done.returncode != status:
        fail(f"{' '.join(map(str, words))} ended with status {done.returncode}: {(done.stdout + done.stderr).decode(errors='replace')[-900:]}")
    return done.stdout.decode()


def draws(what, text, expected):
    if text.rstrip("\n") != expected.rstrip("\n"):
        fail(f"{what} draws another text than expected:\n{text}")


def one(pattern):
    """The one file of the release that has such a name."""
    found = list(DIST.glob(pattern))
    if len(found) != 1:
        fail(f"there are {len(found)} files {pattern} in the release")
    return found[0]


def unpacked(file, folder):
    with tarfile.open(file) as tar:
        tar.extractall(folder)
    found = list(folder.iterdir())
    if len(found) != 1:
        fail(f"{file.name} has {len(found)} folders at its top")
    return found[0]


def try_programs(folder):
    """Each program draws the report that it is made for."""
    place = ROOM / "place"
    (place / "src").mkdir(parents=True, exist_ok=True)
    (place / "src" / "main.rs").write_text(SOURCE)
    (place / "a.rs").write_text("\ty\n")
    # It names no path.
    pathless = EVERYDAY.replace(" --> src/main.rs:1:5\n", "")
    draws("snip", ran([folder / "snip", "src/main.rs", "4", "5", "unused variable", "never read"], cwd=place), pathless)
    draws("replay", ran([folder / "replay", "--text"], cwd=place, input=json.dumps(CASE).encode()), EVERYDAY)
    draws("redraw", ran([folder / "redraw", "--quiet"], status=1, cwd=place, input=json.dumps(MESSAGE).encode() + b"\n"), EVERYDAY)
    draws("yazgult-tidy", ran([folder / "yazgult-tidy", "a.rs"], status=1, cwd=place), TAB)
    names = sorted(it.name for it in folder.iterdir())
    if names != ["cargo-redraw", "redraw", "replay", "snip", "yazgult-tidy"]:
        fail(f"the programs are {names}")
    try_cargo_redraw(folder, place)


def try_cargo_redraw(folder, place):
    """It draws what cargo writes, here one that is played, and ends with cargo's status, or with 2 if redraw fails."""
    played = place / "played"
    played.mkdir(exist_ok=True)
    (played / "message.json").write_text(json.dumps({"reason": "compiler-message", "message": MESSAGE}) + "\n")
    (played / "cargo").write_text(f'#!/bin/sh\n[ "$1 $2 $3" = "check --message-format=json -q" ] && cat {played}/message.json\nexit "$CARGO"\n')
    (played / "cargo").chmod(0o755)
    for options, status, ends in (("--quiet", 0, 0), ("--quiet", 101, 101), ("--no-such-option", 0, 2)):
        env = {"PATH": f"{played}:{folder}:/usr/bin:/bin", "CARGO": str(status), "REDRAW_OPTIONS": options, "COLUMNS": "140"}
        told = ran([folder / "cargo-redraw", "redraw", "check", "-q"], status=ends, cwd=place, env=env)
        if ends != 2:
            draws(f"cargo redraw, where cargo ends with {status}", told, EVERYDAY)


def try_pages(share, zsh):
    """Each page names each option of its program, and shells complete what it names."""
    names = sorted(it.name[: -len(".1.gz")] for it in (share / "man/man1").iterdir())
    if names != ["redraw", "replay", "snip", "yazgult-tidy"]:
        fail(f"the pages are {names}")
    for name in names:
        page = gzip.decompress((share / f"man/man1/{name}.1.gz").read_bytes())
        options = set(re.findall(r"--[a-z-]+", page.decode().replace("\\-", "-").partition(".SH OPTIONS")[2]))
        script = f'. "$1"; COMP_WORDS=({name} --) COMP_CWORD=1; _{name.replace("-", "_")}; printf "%s\\n" "${{COMPREPLY[@]}}"'
        completed = set(ran(["bash", "-c", script, "bash", share / f"bash-completion/completions/{name}"]).split())
        if not options or completed != options:
            fail(f"bash completes {sorted(completed)} of {name}, whose page has {sorted(options)}")
        if shutil.which("groff"):
            told = subprocess.run(["groff", "-man", "-ww", "-Tutf8"], input=page, stdout=subprocess.PIPE, stderr=subprocess.PIPE)
            if told.stderr or name.upper().encode() not in told.stdout.upper():
                fail(f"groff says of the page of {name}: {told.stderr.decode()}")
        for shell, file in (("zsh", zsh / f"_{name}"), ("fish", share / f"fish/vendor_completions.d/{name}.fish")):
            if shutil.which(shell):
                ran([shell, "-n", file])
            elif not file.read_text().strip():
                fail(f"{file} is empty")
    tell(f"pages for man of {len(names)} programs; their options are completed by bash{missing_of('groff', 'zsh', 'fish')}")


def missing_of(*programs):
    missing = [it for it in programs if not shutil.which(it)]
    return f"; not tried, for there is no {' and no '.join(missing)} here" if missing else ""


def draws_in_c(what, words, env=None):
    """A program in C that is compiled by these words hands a report over, and gets its text."""
    (ROOM / "program.c").write_text(C)
    ran(["cc", "-Wall", "-Wextra", "-Werror", ROOM / "program.c", *words, "-o", ROOM / "in-c"])
    answer = json.loads(ran([ROOM / "in-c"], input=json.dumps(CASE).encode(), env=env or {}))
    draws(f"a program in C over {what}", "\n".join(answer["ok"]), EVERYDAY)


def try_c(prefix):
    """A program in C by pkg-config, over the shared library, and over the archive; and the examples, of which the first draws."""
    if shutil.which("pkg-config"):
        flags = ran(["pkg-config", "--cflags", "--libs", "yazgult"], env={"PKG_CONFIG_PATH": str(prefix / "lib/pkgconfig")}).split()
    else:
        tell("there is no pkg-config here, so its flags are written by hand")
        flags = [f"-I{prefix}/include", f"-L{prefix}/lib", f"-Wl,-rpath,{prefix}/lib", "-lyazgult"]
    draws_in_c("the shared library", flags)
    draws_in_c("the archive", [f"-I{prefix}/include", prefix / "lib/libyazgult.a"])
    if "libyazgult.so.1" in ran(["readelf", "-d", ROOM / "in-c"]):
        fail("the program over the archive asks for the shared library")
    examples = sorted((prefix / "share/doc/yazgult/examples").glob("*.c"))
    for example in examples:
        ran(["cc", example, *flags, "-o", ROOM / example.stem])
    if "example" not in [it.stem for it in examples] or not ran([ROOM / "example"]).startswith("error: mismatched types\n"):
        fail("the example in C isn't there, or draws something else")


def try_tarball():
    prefix = unpacked(one("yazgult-*.tar.gz"), ROOM / "tarball")
    try_programs(prefix / "bin")
    tell("the tarball: snip, replay, redraw and yazgult-tidy draw")
    try_pages(prefix / "share", prefix / "share/zsh/site-functions")
    try_c(prefix)
    draws("Python, from the tarball", ran([sys.executable, "-c", PYTHON], env={"PYTHONPATH": str(prefix / "lib/python")}), EVERYDAY)
    tell("the tarball: programs in C over the shared library and over the archive, and in Python draw")


def try_depends(root, package, files):
    """The control file asks for what dpkg-shlibdeps finds that its files need."""
    place = ROOM / "shlibs" / package.name
    (place / "debian").mkdir(parents=True)
    (place / "debian" / "control").write_text("Source: yazgult\n\nPackage: yazgult\nArchitecture: any\n")
    found = ran(["dpkg-shlibdeps", "-O", *(f"-e{it}" for it in files)], cwd=place).strip().partition("=")[2]
    told = ran(["dpkg-deb", "-f", package, "Depends"]).strip()
    if found != told:
        fail(f"{package.name} depends on {told}, and dpkg-shlibdeps finds {found}")


def try_debian():
    if not shutil.which("dpkg-deb"):
        return tell("there is no dpkg-deb here, so no package for Debian is tried")
    root, found = ROOM / "debian", {}
    for package in sorted(DIST.glob("*.deb")):
        ran(["dpkg-deb", "-x", package, root])
        found[ran(["dpkg-deb", "-f", package, "Package"]).strip()] = package
    if sorted(found) != ["libyazgult-dev", "libyazgult1", "python3-yazgult", "yazgult"]:
        fail(f"the packages are {sorted(found)}")
    libraries = root / "usr/lib/x86_64-linux-gnu"
    try_programs(root / "usr/bin")
    try_pages(root / "usr/share", root / "usr/share/zsh/vendor-completions")
    if shutil.which("dpkg-shlibdeps"):
        try_depends(root, found["yazgult"], [it for it in sorted((root / "usr/bin").iterdir()) if it.name != "cargo-redraw"])
        try_depends(root, found["libyazgult1"], [libraries / "libyazgult.so.1"])
    if "ldconfig" not in ran(["dpkg-deb", "-I", found["libyazgult1"], "triggers"]):
        fail("the package of the library doesn't have ldconfig run")
    env = {"LD_LIBRARY_PATH": str(libraries)}
    draws_in_c("Debian's library", [f"-I{root}/usr/include", f"-L{libraries}", "-lyazgult"], env)
    env["PYTHONPATH"] = str(root / "usr/lib/python3/dist-packages")
    draws("Python over Debian's library", ran([sys.executable, "-c", PYTHON], env=env), EVERYDAY)
    tell(f"Debian's packages: programs, library, C and Python draw, from where they are unpacked{missing_of('dpkg-shlibdeps')}")


def try_wheel():
    wheel, venv, folder = one("yazgult-*.whl"), ROOM / "venv", ROOM / "unpacked"
    if subprocess.run([sys.executable, "-m", "venv", venv], stdout=subprocess.DEVNULL, stderr=subprocess.DEVNULL).returncode == 0:
        pip = [venv / "bin/python", "-m", "pip", "--disable-pip-version-check"]
        ran([*pip, "install", "-q", "--no-index", wheel])
        draws("Python, from the wheel", ran([venv / "bin/python", "-I", "-c", PYTHON]), EVERYDAY)
        ran([*pip, "check"])
        return tell("the wheel: installed by pip into a fresh venv, it draws")
    with zipfile.ZipFile(wheel) as packed:
        packed.extractall(folder)
    draws("Python, from the wheel", ran([sys.executable, "-c", PYTHON], env={"PYTHONPATH": str(folder)}), EVERYDAY)
    tell("the wheel: no venv with pip can be made here; unpacked by hand, it draws")


def try_crate():
    crate, program = unpacked(one("yazgult-*.crate"), ROOM / "crate"), ROOM / "program"
    if not shutil.which("cargo"):
        return tell("there is no cargo here, so the crate isn't built")
    (program / "src").mkdir(parents=True)
    (program / "src" / "main.rs").write_text(RUST)
    line = f'annotate-snippets = {{ package = "yazgult", path = "{crate}" }}'
    (program / "Cargo.toml").write_text(f'[package]\nname = "program"\nversion = "0.1.0"\nedition = "2021"\n\n[dependencies]\n{line}\n')
    patch = ["--config", f'patch.crates-io.anstyle.path="{ROOM}/anstyle"'] if (ROOM / "anstyle").exists() else []
    draws("a program in Rust over the crate", ran(["cargo", "run", "-q", "--offline", *patch], cwd=program), EVERYDAY)
    with_what = ", with a stand-in for anstyle" if patch else ""
    tell(f"the crate: as the one dependency of a program that is built offline{with_what}, it draws")


def main():
    for it in map(Path, sys.argv[2:]):
        if it.exists() and any(it.iterdir()):
            fail(f"{it} is to be hidden, and can be seen")
    try_tarball()
    try_debian()
    try_wheel()
    try_crate()


main()
