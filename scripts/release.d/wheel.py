"""Makes the wheel: the Python module with the shared library beside it."""

import base64
import hashlib
import re
import shutil

import elf
import layout
import packing
import repository
from facts import ROOT, Trouble, version
from libraries import SHARED

PROJECT = ROOT / "bindings" / "python" / "pyproject.toml"


def tag(library):
    """For which machines the wheel is: those whose C library has all that the shared library asks for."""
    # No installer knows a name for machines with an older one than 2.5.
    return "py3-none-manylinux_{}_{}_x86_64".format(*max(elf.least_glibc(library), (2, 5)))


def field_of(text, name, default):
    """A field of pyproject.toml whose value is a text."""
    found = re.search(rf'^{name} *= *"([^"]*)"', text, re.M)
    return found[1] if found else default


def list_of(text, name):
    """A field of pyproject.toml whose value is a list of texts."""
    found = re.search(rf"^{name} *= *\[(.*?)\]", text, re.M | re.S)
    return re.findall(r'"([^"]*)"', found[1]) if found else []


def metadata(address=None):
    text = PROJECT.read_text(encoding="utf-8") if PROJECT.exists() else ""
    given = field_of(text, "version", version())
    if given != version():
        raise Trouble(f"the version is {given} in {PROJECT.relative_to(ROOT)} and {version()} in VERSION")
    lines = ["Metadata-Version: 2.1", "Name: yazgult", f"Version: {version()}"]
    lines += [f"Summary: {field_of(text, 'description', 'Draws diagnostic reports as compilers print them')}"]
    lines += ["License: MIT OR Apache-2.0", f"Requires-Python: {field_of(text, 'requires-python', '>=3.8')}"]
    lines += [f"Keywords: {','.join(list_of(text, 'keywords'))}"] * bool(list_of(text, "keywords"))
    lines += [f"Classifier: {it}" for it in list_of(text, "classifiers")] + repository.in_wheel(address)
    pages = [it for it in (PROJECT.parent / "README.md",) if it.exists()]
    body = "".join(it.read_text(encoding="utf-8") for it in pages)
    return "\n".join(lines + ["Description-Content-Type: text/markdown"] * bool(body)) + "\n" + (f"\n{body}" if body else "")


def sum_of(path):
    return "sha256=" + base64.urlsafe_b64encode(hashlib.sha256(path.read_bytes()).digest()).rstrip(b"=").decode()


def make(room, built, licences, seconds, out, address=None):
    """Makes the wheel, and returns its file."""
    room.mkdir()
    for file, path in layout.module_files():
        layout.put(file, (room / path).parent)
    beside = room / layout.module_files()[0][1].parent
    layout.put(built.libraries / SHARED, beside)
    told = room / f"yazgult-{version()}.dist-info"
    tags = tag(built.libraries / SHARED)
    layout.write(metadata(address), told / "METADATA")
    layout.write(f"Wheel-Version: 1.0\nGenerator: yazgult\nRoot-Is-Purelib: false\nTag: {tags}\n", told / "WHEEL")
    shutil.copy(licences, told / "LICENCES.md")
    listed = [it for it in packing.members(room) if it.is_file()]
    lines = [f"{it.relative_to(room).as_posix()},{sum_of(it)},{it.stat().st_size}\n" for it in listed]
    record = told / "RECORD"
    layout.write("".join(lines) + f"{record.relative_to(room).as_posix()},,\n", record)
    file = out / f"yazgult-{version()}-{tags}.whl"
    packing.wheel_file(room, file, seconds)
    return file
