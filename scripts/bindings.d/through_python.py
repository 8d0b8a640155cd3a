"""Tries the package for Python: all cases, its example and its tests."""

import os
import re
import subprocess
import sys

from cases import all_cases, compare, without_numbers
from facts import ROOT, Trouble, run
from readme import FIRST_TEXT

HOME = ROOT / "bindings" / "python"


def check(yazgult):
    """All cases through Python, its example, and the tests of the package."""
    pairs = all_cases()
    answers = [answer_of(yazgult, case) for case, _ in pairs]
    compare("Python", answers, [(case, without_numbers(expected)) for case, expected in pairs])
    if run([sys.executable, HOME / "example.py"]).decode() != FIRST_TEXT:
        raise Trouble("the example in Python draws another text than the README has")
    words = [sys.executable, "-m", "unittest", "discover", "--start-directory", HOME / "tests"]
    told = subprocess.run(words, stderr=subprocess.STDOUT, stdout=subprocess.PIPE, env={**os.environ, "PYTHONPATH": str(HOME)})
    if told.returncode or not re.search(rb"^Ran [1-9]\d* tests", told.stdout, re.M):
        raise Trouble(f"the tests of the package in Python: {told.stdout.decode()[-900:]}")
    print(f"bindings: Python: {told.stdout.decode().strip().splitlines()[-3]}", flush=True)


def answer_of(yazgult, case):
    how = {"spans": "bytes", "sources": case.get("sources"), **(case.get("settings") or {})}
    try:
        if case.get("html"):
            return {"id": case["id"], "ok": [yazgult.render_html(case["groups"], **how)]}
        if case.get("html_page"):
            return {"id": case["id"], "ok": [yazgult.render_html_page(case["groups"], **how)]}
        if case.get("markdown"):
            return {"id": case["id"], "ok": [yazgult.render_markdown(case["groups"], **how)]}
        sheets = ["plain"] if case.get("sheets") is None else case["sheets"]
        return {"id": case["id"], "ok": yazgult.render_sheets(case["groups"], sheets, **how)}
    except yazgult.Refused as refused:
        return {"id": case["id"], "refused": type(refused).__name__, "text": refused.words}
