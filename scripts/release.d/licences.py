"""Tells of the licences: of this project, and of the libraries of the kit that are linked into what is handed out."""

from pathlib import Path

from crates import uses
from facts import ROOT, Trouble, kit

# What each program and library is made of beside what crates.txt names.
ALWAYS = "std"
LINKED = ("snip", "replay", "redraw", "tidy", "yazgult_c")
HEAD = """# Licences

Yazgult is under the MIT licence or the Apache licence 2.0, as you choose; both texts stand below. The programs and libraries hold compiled
code of these libraries of the kit that they are built with, under the licences that the kit has beside them:

"""
WITHOUT = """
Beside {names} the kit has no licence of their own.

The programs also hold the few functions with which the GNU C library and GCC begin and end a program, which the exceptions in the licences of
these two let anyone link into anything. The GNU C library itself is the machine's.
"""


def linked(home):
    """The libraries of the kit that what is handed out stands on, by name."""
    ours, found, rest = uses(), set(), [*LINKED, ALWAYS]
    while rest:
        name = rest.pop()
        if name in found:
            continue
        found.add(name)
        if name in ours:
            rest += ours[name]
            continue
        try:
            told = (home / "rlibs" / f"{name}.rlib" / "format").read_text(encoding="utf-8", errors="replace")
        except OSError as error:
            raise Trouble(f"what {name} stands on can't be read: {error}") from error
        rest += [it.split()[1] for it in told.splitlines() if it.startswith("dep ")]
    return sorted(found - set(ours))


def page():
    """The text of all licences, each once, below the names of what is under it."""
    home = kit()
    files = {name: sorted((home / "rattle" / name).glob("LICENSE*")) for name in linked(home)}
    texts = {}
    for owner, paths in [("Yazgult", sorted(ROOT.glob("LICENSE-*"))), *files.items()]:
        for path in paths:
            texts.setdefault(path.read_text(encoding="utf-8").strip(), []).append(f"{owner} ({path.name})")
    told = HEAD + "".join(f"- `{name}`: {', '.join(it.name for it in paths)}\n" for name, paths in files.items() if paths)
    told += WITHOUT.format(names=", ".join(f"`{name}`" for name, paths in files.items() if not paths))
    for text, owners in texts.items():
        told += f"\n## {', '.join(owners)}\n\n```text\n{text}\n```\n"
    return told


def lay(folder):
    """Writes that text into a folder, and returns its file."""
    file = Path(folder, "LICENCES.md")
    file.write_text(page(), encoding="utf-8")
    return file
