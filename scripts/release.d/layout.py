"""Lays programs, libraries, modules, pages and documents out, below a prefix or as Debian has them."""

import re
import shutil
from dataclasses import dataclass
from pathlib import Path
from typing import NamedTuple

import commands
import licences
import pages
from facts import INSTALLED_AS, MACHINE, PROGRAMS, ROOT, version
from libraries import LINK, SHARED, STATIC

BINDINGS = ROOT / "bindings"
# The examples in C and Python, with what they read.
EXAMPLES = {"c": ("example.c", "compiler.c", "prices.calc"), "python": ("example.py",)}
# What makes `cargo redraw` a command of cargo.
OF_CARGO = Path(__file__).with_name("cargo-redraw")
# The files of the Python package that are the module itself.
OF_PYTHON = {".py", ".pyi", ".typed"}


class Places(NamedTuple):
    """Where each kind of file stands, and what of a place a file tells to others."""

    prefix: str
    bin: str = "bin"
    lib: str = "lib"
    include: str = "include"
    python: str = "lib/python"
    bash: str = "share/bash-completion/completions"
    zsh: str = "share/zsh/site-functions"
    fish: str = "share/fish/vendor_completions.d"
    man: str = "share/man/man1"
    doc: str = pages.DOCUMENTS
    share: str = "share/yazgult"


# Wherever it is unpacked: pkg-config knows where the file that it reads stands.
ANYWHERE = Places("${pcfiledir}/../..")
DEBIAN = Places("/usr", lib=f"lib/{MACHINE}", python="lib/python3/dist-packages", zsh="share/zsh/vendor-completions")


def below(prefix):
    """Below a folder, by its name: which pkg-config reads as a shell does."""
    return Places(re.sub(r"([^\w/.,:@%+=-])", r"\\\1", str(prefix), flags=re.A))


@dataclass
class Built:
    """The folders of what was built."""

    programs: Path
    libraries: Path


def put(source, folder, name=None):
    folder.mkdir(parents=True, exist_ok=True)
    shutil.copy(source, folder / (name or source.name))


def write(text, file):
    file.parent.mkdir(parents=True, exist_ok=True)
    file.write_bytes(text if isinstance(text, bytes) else text.encode())


def lay_programs(root, places, built):
    """The programs, a page of each, what shells complete, and the command of cargo."""
    for program in PROGRAMS:
        put(built.programs / program, root / places.bin, INSTALLED_AS.get(program))
        told = commands.command(program, built.programs / program)
        write(pages.packed(pages.page(told, version())), root / places.man / f"{told.name}.1.gz")
        write(pages.for_bash(told), root / places.bash / told.name)
        write(pages.for_zsh(told), root / places.zsh / f"_{told.name}")
        write(pages.for_fish(told), root / places.fish / f"{told.name}.fish")
    put(OF_CARGO, root / places.bin)


def lay_shared(root, places, built):
    put(built.libraries / SHARED, root / places.lib)


def lay_development(root, places, built):
    """What is needed to compile against the library."""
    put(built.libraries / STATIC, root / places.lib)
    (root / places.lib / LINK).symlink_to(SHARED)
    for header in sorted((BINDINGS / "c").glob("yazgult*.h")):
        put(header, root / places.include)
    told = (BINDINGS / "c" / "yazgult.pc.in").read_text(encoding="utf-8")
    # What the system's own loader finds needs no path in a program.
    told = told.replace("-Wl,-rpath,${libdir} ", "") if places is DEBIAN else told
    for name, value in (("PREFIX", places.prefix), ("LIB", places.lib), ("INCLUDE", places.include), ("VERSION", version())):
        told = told.replace(f"@{name}@", value)
    write(told, root / places.lib / "pkgconfig" / "yazgult.pc")


def module_files():
    """The files of the Python module, each with the path that it is imported by."""
    home = BINDINGS / "python"
    package = [it for it in sorted((home / "yazgult").rglob("*")) if it.suffix in OF_PYTHON and "tests" not in it.parts]
    return [(it, it.relative_to(home)) for it in package or [home / "yazgult.py"]]


def lay_python(root, places):
    """The module; it returns the folder in which it looks for the library first."""
    for file, path in module_files():
        put(file, (root / places.python / path).parent)
    return root / places.python / module_files()[0][1].parent


def lay_examples(folder, language):
    for name in EXAMPLES[language]:
        if (BINDINGS / language / name).exists():
            put(BINDINGS / language / name, folder)


def lay_clients(root, places):
    """What speaks with `replay` in other languages."""
    for client in sorted((BINDINGS / "clients").glob("*.*")):
        put(client, root / places.share / "clients")


def lay_documents(root, places):
    """The pages for readers, with the examples."""
    doc = root / places.doc
    for page in [*sorted(ROOT.glob("*.md")), *sorted(ROOT.glob("LICENSE-*"))]:
        put(page, doc)
    shutil.copytree(ROOT / "docs", doc / "docs", dirs_exist_ok=True)
    for language in EXAMPLES:
        lay_examples(doc / "examples", language)


def lay_libraries(root, places, built):
    """All that programs in other languages need, below one folder."""
    lay_shared(root, places, built)
    lay_development(root, places, built)
    # The module finds the library beside itself, wherever the folder is.
    beside = lay_python(root, places)
    up = "../" * len(beside.relative_to(root).parts)
    (beside / SHARED).symlink_to(f"{up}{places.lib}/{SHARED}")


def lay_all(root, places, built):
    """All below one folder, as the tarball has it and as it is installed."""
    lay_programs(root, places, built)
    lay_libraries(root, places, built)
    lay_clients(root, places)
    lay_documents(root, places)
    licences.lay(root / places.doc)
