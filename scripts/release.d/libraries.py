"""Makes libyazgult.a and libyazgult.so.1 of the archive that rt builds and of the three functions that it wants."""

import os
import shutil
import tempfile
from pathlib import Path

from facts import Trouble, run

STATIC, SHARED, LINK = "libyazgult.a", "libyazgult.so.1", "libyazgult.so"
# What the shared library gives: the calls of yazgult.h, and nothing that they are made of.
EXPORTS = "YAZGULT_1 { global: yazgult_*; local: *; };\n"
# Nothing in it is written after the loader is done, and no path of a file that it is made of stands in it.
LINKED = ("-Wl,--gc-sections", "-Wl,-z,relro,-z,now", "-Wl,-z,noexecstack", "-Wl,--build-id=none", "-Wl,--strip-all")


def make_static(plain):
    """Puts the members of both archives into one, without what is for debuggers."""
    run(["ar", "-M"], cwd=plain, input=f"create {STATIC}\naddlib upper.a\naddlib base.a\nsave\nend\n".encode())
    members = [run(["ar", "t", name], cwd=plain).splitlines() for name in ("upper.a", "base.a", STATIC)]
    if not members[0] or sorted(members[2]) != sorted(members[0] + members[1]):
        raise Trouble(f"ar has put other members into {STATIC} than the two archives have that it is made of")
    run(["strip", "--strip-debug", "--enable-deterministic-archives", STATIC], cwd=plain)


def make_shared(plain):
    Path(plain, "exports").write_text(EXPORTS)
    words = [f"-Wl,-soname,{SHARED}", "-Wl,--version-script=exports", *LINKED]
    run(["cc", "-shared", "-o", SHARED, *words, "-Wl,--whole-archive", "upper.a", "-Wl,--no-whole-archive", "base.a"], cwd=plain)


def make(archive, base, folder):
    """Makes both in a folder, and beside the shared one the link that compilers look for."""
    # In a script `ar` takes a blank, a bracket or a semicolon for the end of a name: so it works in a folder where names are plain.
    with tempfile.TemporaryDirectory(prefix="yazgult-") as plain:
        for name, file in (("upper.a", archive), ("base.a", base)):
            shutil.copy(file, Path(plain, name))
        make_static(plain)
        make_shared(plain)
        for name in (STATIC, SHARED):
            shutil.copy(Path(plain, name), Path(folder, f".{name}.new"))
            Path(folder, f".{name}.new").chmod(0o644)
            os.replace(Path(folder, f".{name}.new"), Path(folder, name))
    Path(folder, f".{LINK}.new").unlink(missing_ok=True)
    Path(folder, f".{LINK}.new").symlink_to(SHARED)
    os.replace(Path(folder, f".{LINK}.new"), Path(folder, LINK))
