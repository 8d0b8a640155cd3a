"""What a release is of: the version, the commit and its time, and the kit that proved it."""

import os
import subprocess
from pathlib import Path

ROOT = Path(__file__).resolve().parents[2]
# The machine that all is for, by the names that Rust, Debian and tarballs have for it.
TRIPLE, DEBIAN_MACHINE, MACHINE = "x86_64-unknown-linux-gnu", "amd64", "x86_64-linux-gnu"
PROGRAMS = ("snip", "replay", "redraw", "tidy")
# Where a program is called otherwise once it is installed: another `tidy` is on many machines.
INSTALLED_AS = {"tidy": "yazgult-tidy"}


class Trouble(Exception):
    """Why nothing is made: told to whoever called."""


def run(words, **how):
    """Runs a command, and returns what it prints."""
    words = [str(it) for it in words]
    try:
        ran = subprocess.run(words, stdout=subprocess.PIPE, stderr=subprocess.PIPE, **how)
    except OSError as error:
        raise Trouble(f"{words[0]} can't be run: {error.strerror}") from error
    if ran.returncode:
        said = (ran.stdout + ran.stderr).decode(errors="replace")
        raise Trouble(f"{' '.join(words)} ended with status {ran.returncode}: {said[-900:]}")
    return ran.stdout


def said(*words):
    """What a command says, as a line run at the top of the repository."""
    return run(words, cwd=ROOT).decode().strip()


def version():
    return (ROOT / "VERSION").read_text(encoding="utf-8").strip()


def commit():
    """The commit, and whether the files are just those of it."""
    return said("git", "rev-parse", "HEAD"), not said("git", "status", "--porcelain")


def seconds():
    """The time that all files of a release have: SOURCE_DATE_EPOCH, or the time of the commit."""
    return int(os.environ.get("SOURCE_DATE_EPOCH") or said("git", "log", "-1", "--format=%ct"))


def kit():
    """The folder of the toolchain."""
    return Path(said("rt", "doc")).parent
