"""Makes the crate of the Rust binding, with the static library for its target inside: so that it builds as it is unpacked."""

import shutil

import layout
import packing
import repository
from facts import ROOT, TRIPLE, version
from libraries import STATIC

HOME = ROOT / "bindings" / "rust"
# What stands in the folder and is no part of the crate, beside folders that are crates of their own.
LEFT_OUT = {"target", "Cargo.lock"}


def files():
    """The crate's own files."""
    found, rest = [], [HOME]
    while rest:
        for path in rest.pop().iterdir():
            if path.name in LEFT_OUT or path.name.startswith("."):
                continue
            if path.is_file():
                found.append(path)
            elif not (path / "Cargo.toml").exists():
                rest.append(path)
    return sorted(found)


def make(room, built, licences, seconds, out, address=None):
    """Makes the crate's file, and returns it."""
    for path in files():
        layout.put(path, (room / path.relative_to(HOME)).parent)
    manifest = (HOME / "Cargo.toml").read_text(encoding="utf-8")
    layout.write(repository.in_manifest(manifest, address), room / "Cargo.toml")
    layout.put(built.libraries / STATIC, room / "lib" / TRIPLE)
    shutil.copy(licences, room / "LICENCES.md")
    for path in sorted(ROOT.glob("LICENSE-*")):
        layout.put(path, room)
    name = f"yazgult-{version()}"
    file = out / f"{name}.crate"
    packing.tar_gz(room, name, file, seconds, with_folders=False)
    return file
