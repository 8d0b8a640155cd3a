"""Runs the trial of a release in a room of its own, in which the toolchain and the clone can't be seen."""

import os
import shutil
import subprocess
import sys
from pathlib import Path

from facts import ROOT

TRIAL = Path(__file__).with_name("trial.py")
# Lays an empty folder over others, and runs a command.
HIDE = 'empty="$1"; shift; while [ "$1" != -- ]; do mount --bind "$empty" "$1" || exit 99; shift; done; shift; exec "$@"'


def stand_in():
    """The crate that stands for anstyle where there is no registry, if the binding has one."""
    places = [*(ROOT / "bindings").glob("*/Cargo.toml"), *(ROOT / "bindings" / "rust").glob("*/Cargo.toml")]
    found = [it.parent for it in places if 'name = "anstyle"' in it.read_text(encoding="utf-8").splitlines()]
    return found[0] if found else None


def lay(dist, room):
    """Lays into a room all that the trial reads."""
    room.mkdir()
    shutil.copytree(dist, room / "dist")
    shutil.copy(TRIAL, room)
    if stand_in():
        shutil.copytree(stand_in(), room / "anstyle", ignore=shutil.ignore_patterns("target"))
    for name in ("empty", "home", "cargo"):
        (room / name).mkdir()


def surroundings(room):
    """The environment of the trial: the system's programs, cargo, and folders of its own."""
    cargo = shutil.which("cargo")
    folders = ["/usr/bin", "/bin", *([str(Path(cargo).parent)] if cargo else [])]
    # What rustup has, where cargo is of it.
    rustup = os.environ.get("RUSTUP_HOME") or str(Path.home() / ".rustup")
    return {"PATH": ":".join(folders), "HOME": str(room / "home"), "CARGO_HOME": str(room / "cargo"), "RUSTUP_HOME": rustup, "LC_ALL": "C.UTF-8"}


def hiding(room, hidden):
    """The words before a command that is not to see these folders; none where that isn't allowed."""
    for unshare in (["unshare", "-m"], ["unshare", "-rm"]):
        words = [*unshare, "sh", "-c", HIDE, "sh", str(room / "empty"), *map(str, hidden), "--"]
        try:
            if subprocess.run([*words, "true"], stderr=subprocess.DEVNULL).returncode == 0:
                return words
        except OSError:
            break
    return []


def run_hidden(dist, room, hidden):
    """Runs the trial, and returns its status."""
    lay(dist, room)
    words = hiding(room, hidden)
    if words:
        print("release-tests: the toolchain and this clone are hidden", flush=True)
    else:
        print("release-tests: unshare isn't allowed here: the toolchain and this clone are only not on the PATH", flush=True)
    words += [sys.executable, str(room / "trial.py"), str(room), *(map(str, hidden) if words else [])]
    return subprocess.run(words, env=surroundings(room), cwd=room).returncode
