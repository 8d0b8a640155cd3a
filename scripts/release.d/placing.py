"""Puts what is laid out in one folder below another one, keeps a list of it there, and takes it away again by that."""

import contextlib
import os
import shutil
from pathlib import Path

import packing
from facts import Trouble

# What was put below a folder: a path a line, and of the folders that were made for it each with a slash after it.
LIST = "share/yazgult/installed"


def listed(prefix):
    """The lines of the list, where there is one."""
    try:
        lines = (prefix / LIST).read_text(encoding="utf-8").splitlines()
    except FileNotFoundError:
        return set()
    wrong = [it for it in lines if it.startswith("/") or ".." in Path(it).parts]
    if wrong:
        raise Trouble(f"{prefix / LIST} names what isn't below {prefix}: {wrong[0]}")
    return set(lines)


def put(file, target):
    """Puts a file in the place of one that may be in use now."""
    new = target.with_name(f".{target.name}.new")
    new.unlink(missing_ok=True)
    shutil.copy(file, new, follow_symlinks=False)
    os.replace(new, target)


def remove(prefix, lines):
    """Takes away files, and the folders that are empty then; it returns how many files there were."""
    count = 0
    # What is in a folder comes before the folder.
    for line in sorted(lines, reverse=True):
        path = prefix / line
        if line.endswith("/"):
            with contextlib.suppress(OSError):
                path.rmdir()
        elif path.is_symlink() or path.is_file():
            path.unlink()
            count += 1
    return count


def make_folder(prefix, inside):
    """Makes a folder and those above it, and returns which of them weren't there."""
    made = []
    for it in [*reversed(inside.parents), inside]:
        if it != Path(".") and not (prefix / it).is_dir():
            (prefix / it).mkdir()
            made.append(f"{it}/")
    return made


def place(laid, prefix, is_whole):
    """Puts all below a folder. What an earlier list has is taken away where this is the whole and hasn't got it."""
    before, now = listed(prefix), set()
    prefix.mkdir(parents=True, exist_ok=True)
    for path in packing.members(laid):
        inside = path.relative_to(laid)
        if path.is_dir() and not path.is_symlink():
            now.update(make_folder(prefix, inside))
        else:
            put(path, prefix / inside)
            now.add(str(inside))
    now.update([LIST, *make_folder(prefix, Path(LIST).parent)])
    folders = {it for it in before if it.endswith("/")}
    stale = before - now - folders if is_whole else set()
    remove(prefix, stale)
    (prefix / LIST).write_text("".join(f"{it}\n" for it in sorted(now | before - stale)), encoding="utf-8")


def uninstall(prefix):
    """Takes away all that the list names, and returns how many files that were."""
    lines = listed(prefix)
    if not lines:
        raise Trouble(f"there is no {prefix / LIST}, so nothing is known to be installed there")
    return remove(prefix, lines)
