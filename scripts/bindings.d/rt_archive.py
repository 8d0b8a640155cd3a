"""Builds libyazgult_c.a where it isn't there, or was built of other files, and makes both libraries of it."""

import hashlib

import libraries
from crates import below, uses
from facts import ROOT, Trouble, kit, run

HOME = ROOT / "crates" / "yazgult_c"
NAME = "libyazgult_c.a"


def made_of(rlibs):
    """A sum of what the archive is built of: its crate's files, and the libraries below, each by the sum that it has of its own."""
    files = [it for part in ("src", "specs", "proofs") for it in (HOME / part).rglob("*") if it.is_file()]
    sums = [hashlib.sha256(it.read_bytes()).hexdigest() for it in (*sorted(files), *(it / "format" for it in rlibs))]
    return hashlib.sha256("".join(sums).encode()).hexdigest()


def sum_of(archive):
    return hashlib.sha256(archive.read_bytes()).hexdigest()


def build(archive):
    """Builds the archive over the libraries that were proved: its own crate is proved here, and none below it."""
    named, every = below("yazgult_c")
    rlib = {it: ROOT / "crates" / it / "out" / "rlib" / f"{it}.rlib" for it in every}
    missing = [it for it in every if not (rlib[it] / "format").exists()]
    if missing:
        raise Trouble(f"there is no library of {' '.join(missing)}: run rt lib in crates/yazgult_c, or rt ci")
    stamp, sums = archive.with_suffix(".made_of"), made_of(rlib.values())
    if archive.exists() and stamp.exists() and stamp.read_text() == f"{sums} {sum_of(archive)}":
        return
    # What stands there afterwards is new.
    archive.unlink(missing_ok=True)
    print(f"bindings: building {NAME}: a minute or two", flush=True)
    archive.parent.mkdir(exist_ok=True)
    run([kit() / "bin" / "rattle", "build", *words_of_build(named, rlib), "-o", archive], cwd=HOME)
    stamp.write_text(f"{sums} {sum_of(archive)}")


def words_of_build(named, rlib):
    """What `rattle build` is told: the crates that this one names, all that these stand on, and where the kit has the rest."""
    words = ["--crate-name", "yazgult_c", "src/lib.rt", "--extern", f"std={kit()}/rlibs/std.rlib"]
    words += ["-L", f"dependency={kit()}/rlibs"]
    for it in uses()["yazgult_c"]:
        words += ["--extern", f"{it}={rlib[it] if it in named else kit() / 'rlibs' / f'{it}.rlib'}"]
    for it in rlib.values():
        words += ["-L", f"dependency={it.parent}"]
    words += ["--antt-project", f"{kit()}/rattle/logic/antt-project.json", "--logic-built", f"{kit()}/logic_built"]
    words += ["--jobs", "2", "--links", "yazgult_c=", "--crate-type", "staticlib", "--toolchain", f"{kit()}/toolchain"]
    return [*words, "--backend", "llvm"]


def make_libraries(archive, room):
    """Makes libyazgult.a and libyazgult.so.1 of the archive that rt builds and of the three functions that it wants."""
    libraries.make(archive, kit() / "c" / "liblibc_c.a", room)
