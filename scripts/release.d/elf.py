"""What programs and libraries ask of the machine that they run on, by their symbols."""

import re

from facts import run

# A table of relative relocations in short form, which the loader knows from this version on.
RELR = ("GLIBC_ABI_DT_RELR", (2, 36))


def is_elf(path):
    """Whether a file is a program or a library of the machine, and no script."""
    with open(path, "rb") as file:
        return file.read(4) == b"\x7fELF"


def least_glibc(path):
    """The least version of the GNU C library that has all that a program or a shared library asks for."""
    asked = run(["readelf", "-V", "-W", path]).decode()
    found = [tuple(map(int, it.split("."))) for it in re.findall(r"Name: GLIBC_(\d[\d.]*) ", asked)]
    return max([it[:2] for it in found] + [RELR[1]] * (RELR[0] in asked), default=(2, 0))


def needed(path):
    """The shared libraries that a file names."""
    return sorted(re.findall(r"\(NEEDED\).*\[(.*)\]", run(["readelf", "-d", "-W", path]).decode()))


def soname(path):
    return "".join(re.findall(r"\(SONAME\).*\[(.*)\]", run(["readelf", "-d", "-W", path]).decode()))


def symbols(*words):
    """The names that `nm` lists."""
    lines = run(["nm", "-P", *words]).decode().splitlines()
    return {it.split()[0].split("@")[0] for it in lines if len(it.split()) > 1}


def exported(path):
    """The names that a shared library gives to others, without those of versions."""
    lines = run(["nm", "-P", "-D", "--defined-only", path]).decode().splitlines()
    return {it.split()[0].split("@")[0] for it in lines if it.split()[1] != "A"}


def wanted(archive):
    """The names that an archive asks for and doesn't hold."""
    return symbols("-u", archive) - symbols("--defined-only", archive) - {"_GLOBAL_OFFSET_TABLE_"}
