"""Makes the packages for Debian: programs, the shared library, what is needed to compile against it, and the Python module."""

import gzip
import hashlib
import os
import shutil
from dataclasses import dataclass
from typing import List

import elf
import layout
import packing
import repository
from facts import DEBIAN_MACHINE, PROGRAMS, ROOT, run, version
from libraries import SHARED

MAINTAINER = "Yazgult maintainers <maintainers@users.noreply.yazgult.example>"
LONG = """ Yazgult turns reports about source text into the text that compilers print:
 titles, the lines in question, marks below them, labels, notes and
 suggested edits. Each function of it is proved to keep its contract.
"""


@dataclass
class Package:
    name: str
    section: str
    machine: str
    about: str
    depends: List[str]
    # Other fields of the control file.
    more: str = ""


def c_library(paths):
    """What the package of the C library has to be, for files that ask for it."""
    return "libc6 (>= {}.{})".format(*max(map(elf.least_glibc, paths)))


def packages(built):
    """All packages, the library's before those that ask for it."""
    same = f"libyazgult1 (= {version()})"
    programs = c_library([built.programs / it for it in PROGRAMS])
    library = c_library([built.libraries / SHARED])
    return [
        Package("yazgult", "devel", DEBIAN_MACHINE, "draws diagnostic reports as compilers print them", [programs]),
        Package("libyazgult1", "libs", DEBIAN_MACHINE, "draws diagnostic reports: the shared library", [library], "Multi-Arch: same\n"),
        Package("libyazgult-dev", "libdevel", DEBIAN_MACHINE, "draws diagnostic reports: to compile against", [same], "Multi-Arch: same\n"),
        Package("python3-yazgult", "python", "all", "draws diagnostic reports: the Python module", ["python3:any", same]),
    ]


def lay(package, root, built):
    """Lays out what a package installs."""
    examples = root / "share/doc" / package.name / "examples"
    if package.name == "yazgult":
        layout.lay_programs(root, layout.DEBIAN, built)
        layout.lay_clients(root, layout.DEBIAN)
        shutil.copytree(ROOT / "docs", root / layout.DEBIAN.doc / "docs")
        shutil.copy(ROOT / "README.md", root / layout.DEBIAN.doc)
    elif package.name == "libyazgult1":
        layout.lay_shared(root, layout.DEBIAN, built)
    elif package.name == "libyazgult-dev":
        layout.lay_development(root, layout.DEBIAN, built)
        layout.lay_examples(examples, "c")
    else:
        layout.lay_python(root, layout.DEBIAN)
        layout.lay_examples(examples, "python")


def lay_beside(package, root, licences):
    """What each package has in its folder of documents."""
    doc = root / "share/doc" / package.name
    doc.mkdir(parents=True, exist_ok=True)
    shutil.copy(licences, doc / "copyright")
    (doc / "changelog.gz").write_bytes(gzip.compress((ROOT / "CHANGELOG.md").read_bytes(), 9, mtime=0))


def control(package, root, address=None):
    """The file that tells a system what the package is and asks for."""
    size = sum(it.stat().st_size for it in root.rglob("*") if it.is_file() and not it.is_symlink())
    lines = {"Package": package.name, "Version": version(), "Architecture": package.machine, "Maintainer": MAINTAINER}
    lines |= {"Installed-Size": -(-size // 1024), "Depends": ", ".join(package.depends), "Section": package.section, "Priority": "optional"}
    more = package.more + repository.in_debian(address)
    return "".join(f"{name}: {it}\n" for name, it in lines.items()) + more + f"Description: {package.about}\n{LONG}"


def make(package, room, built, licences, seconds, out, address=None):
    """Makes a package in a folder of its own, and returns its file."""
    root = room / package.name
    lay(package, root / "usr", built)
    lay_beside(package, root / "usr", licences)
    told = {"control": control(package, root, address)}
    sums = [(hashlib.md5(it.read_bytes()).hexdigest(), it.relative_to(root)) for it in packing.members(root) if it.is_file() and not it.is_symlink()]
    told["md5sums"] = "".join(f"{sum}  {path}\n" for sum, path in sums)
    if package.name == "libyazgult1":
        # The loader's list of libraries is made anew once it is there, and once it is gone.
        told["triggers"] = "activate-noawait ldconfig\n"
        told["shlibs"] = f"libyazgult 1 libyazgult1 (>= {version()})\n"
    (root / "DEBIAN").mkdir()
    for name, text in told.items():
        (root / "DEBIAN" / name).write_text(text, encoding="utf-8")
    packing.settle(root, seconds)
    file = out / f"{package.name}_{version()}_{package.machine}.deb"
    env = {**os.environ, "SOURCE_DATE_EPOCH": str(seconds)}
    run(["dpkg-deb", "--root-owner-group", "-Zgzip", "-z9", "--build", root, file], env=env)
    return file
