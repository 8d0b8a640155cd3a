"""Looks for what no JSON can say in a report that couldn't be handed over."""

from __future__ import annotations

import math
from typing import Any, List, Optional, Tuple

from .report import Element, Part
from .source import Source

# How deep a value may be nested; no field of a report lies as deep.
DEEPEST = 16


def fault_of(case: Any) -> Optional[str]:
    """The path of the first place at which JSON has no words for what stands there, and what that is."""
    left: List[Tuple[str, Any, int]] = [("", case, 0)]
    while left:
        path, value, depth = left.pop()
        try:
            if isinstance(value, Part):
                # An element is the field of an object that has its kind's name.
                path += f".{value.name()}" if isinstance(value, Element) and path.endswith("]") else ""
                value = value.as_json()
            elif isinstance(value, Source):
                continue
            wrong = wrong_with(value, depth)
            if wrong:
                return f"{path}: {wrong}"
            left += reversed([(way, it, depth + 1) for way, it in below(path, value)])
        except Exception as error:
            return f"{path}: it can't be read: {type(error).__name__}"
    return None


def below(path: str, value: Any) -> List[Tuple[str, Any]]:
    """What a value holds, each with its path."""
    if isinstance(value, dict):
        return [(f"{path}.{name}" if path else name, it) for name, it in value.items()]
    if isinstance(value, (list, tuple)):
        return [(f"{path}[{at}]", it) for at, it in enumerate(value)]
    return []


def wrong_with(value: Any, depth: int) -> Optional[str]:
    """What is wrong with a value itself, whatever it holds."""
    if isinstance(value, str):
        return "expected a text, found half of a surrogate pair in it" if is_broken(value) else None
    if isinstance(value, float):
        return None if math.isfinite(value) else f"expected a number, found {value!r}"
    if isinstance(value, int):
        return f"expected a number below 2^64, found one of {value.bit_length()} bits" if value.bit_length() > 64 else None
    if isinstance(value, (dict, list, tuple)):
        if depth > DEEPEST:
            return "nested deeper than a report is"
        return wrong_name(value) if isinstance(value, dict) else None
    return None if value is None else f"expected what JSON has, found a value of type {type(value).__name__}"


def wrong_name(fields: Any) -> Optional[str]:
    """What is wrong with the names of an object's fields."""
    for name in fields:
        if not isinstance(name, str):
            return f"expected texts as names of fields, found one of type {type(name).__name__}"
        if is_broken(name):
            return "expected texts as names of fields, found half of a surrogate pair in one"
    return None


def is_broken(text: str) -> bool:
    """Whether half of a surrogate pair stands in a text."""
    try:
        text.encode()
    except UnicodeEncodeError:
        return True
    return False
