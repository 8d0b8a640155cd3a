"""The cases that are tried in each language, and what is expected of each."""

import json
from pathlib import Path

from facts import ROOT, Trouble

DATA = ROOT / "crates" / "replay" / "data"
READABLE = ROOT / "crates" / "replay" / "cases"
# Settings that few cases of crates/replay/data have.
SETTINGS = {"show_line_feeds", "context_before", "context_after", "wrap", "mask_controls", "label_lines"}
# The fields by which a case is drawn as something else than a text under each sheet.
FORMS = ("html", "html_page", "markdown")
# How many cases are tried, beside the worked rows.
COUNT = 1000


def cases():
    """The worked rows and a thousand other cases, each with what is expected."""
    found = []
    for expected in sorted(DATA.glob("*.expected.jsonl")):
        given = DATA / expected.name.replace(".expected", "")
        found += [(given, pairs_of(given, expected))]
    # C and Rust take spans as bytes alone: places by characters, or by lines and columns, are of JSON.
    others = [it for given, pairs in found if given.stem not in ("worked-rows", "places") for it in pairs]
    step = max(len(others) // COUNT, 1)
    return [it for given, pairs in found if given.stem == "worked-rows" for it in pairs] + others[::step] + with_settings()


def pairs_of(given, expected):
    """The cases of a file, each with what is expected."""
    lines = zip(given.read_text().splitlines(), expected.read_text().splitlines())
    return [(json.loads(a), json.loads(b)) for a, b in lines]


def readable():
    """The cases that can be read: the name of each, its report, and what is drawn of it."""
    for path in sorted(READABLE.glob("*/*.txt")):
        head, _, text = path.read_text(encoding="utf-8").partition("\n\n")
        yield path.stem, json.loads(head), text[:-1]


def with_settings():
    """The cases that can be read and have one of the settings that the others lack."""
    found = []
    for name, report, text in readable():
        if not any(map(report.get, FORMS)) and SETTINGS & set(report.get("settings") or {}):
            case = {"id": name, "settings": report["settings"], "groups": report["groups"]}
            found.append((case, {"id": name, "ok": [text]}))
    return found


def all_cases():
    """All cases that there are, each with what is expected: `scripts/cases` prints those that can be read."""
    pairs = [it for given in report_files([]) for it in pairs_of(given, given.with_suffix(".expected.jsonl"))]
    for name, report, text in readable():
        case = {"id": name, **report}
        refused, texts = case.pop("refused", None), text.split("\n---\n") if len(case.get("sheets") or []) > 1 else [text]
        pairs.append((case, {"id": name, **({"refused": refused, "text": text} if refused else {"ok": texts})}))
    return pairs


def cases_by_json():
    """The cases that are drawn as HTML, as articles or in Markdown, each with what is expected."""
    found = []
    for name, case, text in readable():
        if any(map(case.get, FORMS)):
            answer = {"refused": case["refused"], "text": text} if "refused" in case else {"ok": [text]}
            found.append(({"id": name, **case}, {"id": name, **answer}))
    return found


def places():
    """The cases with spans by lines and columns that `span_at` takes, each with what is expected."""
    pairs = pairs_of(DATA / "places.jsonl", DATA / "places.expected.jsonl")
    return [(case, expected) for case, expected in pairs if "ok" in expected and '"from"' in json.dumps(case) and '"byte"' not in json.dumps(case)]


def report_files(names):
    """The files of cases that these names are, or that lie in these folders."""
    files = []
    for name in names or [DATA]:
        path = Path(name)
        if not path.exists():
            raise Trouble(f"there is no {name}")
        files += sorted(path.glob("*.jsonl")) if path.is_dir() else [path]
    return [it for it in files if ".expected" not in it.name]


def json_lines(pairs):
    """The cases as lines of JSON."""
    return [json.dumps(case, ensure_ascii=False) for case, _ in pairs]


def without_numbers(answer):
    """Returns an answer without the numbers of a refusal, which its text has too."""
    return {name: answer[name] for name in ("id", "ok", "refused", "text", "error") if name in answer}


def compare(what, answers, pairs):
    differing = [case["id"] for answer, (case, expected) in zip(answers, pairs) if answer != expected]
    if differing or len(answers) != len(pairs):
        raise Trouble(f"{what}: {len(differing)} of {len(pairs)} cases differ, as {differing[:5]}")
    print(f"bindings: {what}: {len(pairs)} cases as expected", flush=True)
