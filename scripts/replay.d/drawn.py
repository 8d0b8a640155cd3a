"""The cases that `replay` draws, and what it answers to reports. `replay` is the program that `rt ci` or `rt run` left."""

import json
import subprocess
from pathlib import Path

ROOT = Path(__file__).resolve().parent.parent.parent
PROGRAM = ROOT / "crates" / "replay" / "out" / "replay"


def cases():
    """Yields the reports of all cases."""
    for path in sorted((ROOT / "crates" / "replay" / "data").glob("*.jsonl")):
        if not path.name.endswith(".expected.jsonl"):
            yield from map(json.loads, path.read_text(encoding="utf-8").splitlines())
    told = subprocess.run([ROOT / "scripts" / "cases", "--json"], stdout=subprocess.PIPE, check=True, encoding="utf-8")
    yield from map(json.loads, told.stdout.splitlines())


def plain(report, **settings):
    """The same report, drawn as plain text without links, with these settings."""
    settings = {**(report.get("settings") or {}), "hyperlink": False, **settings}
    return {**report, "settings": settings, "sheets": ["plain"], "html": False, "html_page": False, "markdown": False}


def answers(reports):
    """Returns what `replay` answers to these."""
    given = "".join(json.dumps(it) + "\n" for it in reports)
    run = subprocess.run([PROGRAM, "-"], input=given, stdout=subprocess.PIPE, check=True, encoding="utf-8")
    return [json.loads(line) for line in run.stdout.split("\n") if line]
