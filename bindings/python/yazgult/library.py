"""Finds libyazgult, once it is needed, and calls it."""

from __future__ import annotations

import ctypes
import functools
import os
from pathlib import Path
from typing import Any, List

from .errors import LibraryNotFound

# What names the library's file, before all other places.
VARIABLE = "YAZGULT_LIBRARY"
NAMES = ("libyazgult.so.1", "libyazgult.so")
BYTES, ROOM_FOR = (ctypes.c_char_p, ctypes.c_size_t), (ctypes.c_char_p, ctypes.c_size_t)
KEPT = (ctypes.c_void_p,)
# The functions of the library: what each takes, and what it returns.
FUNCTIONS = {
    "yazgult_draw": (BYTES + ROOM_FOR, ctypes.c_size_t),
    "yazgult_draw_json": (BYTES + ROOM_FOR, ctypes.c_size_t),
    "yazgult_draw_with": (BYTES + KEPT + ROOM_FOR, ctypes.c_size_t),
    "yazgult_sources_add": (BYTES + KEPT, ctypes.c_int),
    "yazgult_sources_answer": (KEPT + ROOM_FOR, ctypes.c_size_t),
    "yazgult_sources_free": (KEPT, None),
    "yazgult_sources_new": (KEPT, ctypes.c_int),
    "yazgult_sources_share": (KEPT + KEPT, ctypes.c_int),
    "yazgult_version": (ROOM_FOR, ctypes.c_size_t),
}
HOW = f"Install the wheel of yazgult, which holds the library, or name its file in the environment variable {VARIABLE}."

# How much room an answer gets before its length is known, in bytes, and how much is kept of one that took more.
ROOM, MOST_ROOM = 1 << 16, 1 << 20
# Rooms that no call uses now.
spare: List[Any] = []


def places() -> List[str]:
    """Where the library is looked for: where the variable says, or beside this package, in the lib folder of the prefix that the
    package is installed under, and where the system has its libraries."""
    named = os.environ.get(VARIABLE)
    if named:
        return [named]
    here = Path(__file__).resolve().parent
    beside = [folder / name for folder in (here, here.parent.parent) for name in NAMES]
    # A file that is there is the one, so that what is wrong with it is told.
    return [str(it) for it in beside if it.is_file()][:1] or list(NAMES)


@functools.lru_cache(maxsize=None)
def library() -> ctypes.CDLL:
    """The library, loaded once. Where that fails, the next call tries again."""
    why = ""
    for place in places():
        try:
            loaded = ctypes.CDLL(place)
        except OSError as error:
            why = why or str(error)
            continue
        for name, (takes, returns) in FUNCTIONS.items():
            function = getattr(loaded, name, None)
            if function is None:
                raise LibraryNotFound(f"{place} is another library: it has no {name}. {HOW}")
            function.argtypes, function.restype = takes, returns
        return loaded
    raise LibraryNotFound(f"The library of yazgult can't be loaded: {why}. {HOW}")


@functools.lru_cache(maxsize=None)
def function_of(name: str) -> Any:
    """A function of the library."""
    return getattr(library(), name)


def free_room() -> Any:
    """A room that no other call uses until it is put back."""
    try:
        return spare.pop()
    except IndexError:
        return ctypes.create_string_buffer(ROOM)


def call(name: str, *given: Any, kept: Any = None) -> bytes:
    """What a function of the library answers to these arguments, in as much room as that takes. Any thread may call at any time. Where it
    is given a list of kept sources, that keeps an answer for which there isn't room."""
    function = function_of(name)
    given = given if kept is None else (*given, kept)
    room = free_room()
    length: int = function(*given, room, len(room))
    while length > len(room):
        if kept is not None:
            function, given = function_of("yazgult_sources_answer"), (kept,)
        room = ctypes.create_string_buffer(length)
        length = function(*given, room, len(room))
    answer: bytes = room[:length]
    if len(room) <= MOST_ROOM:
        spare.append(room)
    return answer
