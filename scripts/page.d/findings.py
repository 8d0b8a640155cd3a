"""Two hundred findings, as rustc writes them: of all levels, in several files, with markup in what they say."""

import json

FILES = ["src/main.rs", "src/<b>bold</b>.rs", "src/a&b.rs", "tests/\"quoted\".rs", "src/größe.rs"]
LEVELS = ["error", "warning", "note", "help"]
MESSAGES = ["unused", "<b>bold</b>", "a & b", "'x' \"y\"", "</article>"]


def finding(number):
    """A finding. Each tenth says what the first says."""
    number = 0 if number % 10 == 0 else number
    level = LEVELS[number % 7 % 4]
    line = number + 1
    span = {
        "file_name": FILES[number % len(FILES)],
        "byte_start": 0,
        "byte_end": 1,
        "line_start": line,
        "line_end": line,
        "column_start": 1,
        "column_end": 4,
        "is_primary": True,
        "label": None,
        "suggested_replacement": None,
        "suggestion_applicability": None,
        "expansion": None,
        "text": [{"text": "let <i> = &x;", "highlight_start": 1, "highlight_end": 4}],
    }
    code = {"code": "E0308", "explanation": None} if level == "error" else None
    message = MESSAGES[number % 3 % len(MESSAGES)] if number % 2 else MESSAGES[number // 2 % len(MESSAGES)]
    return {"message": message, "code": code, "level": level, "spans": [span], "children": [], "rendered": None}


def lines(count=200):
    """So many findings, as lines."""
    return "".join(json.dumps(finding(number)) + "\n" for number in range(count)).encode()
