"""Tries lines of JSON, through C and Python."""

import json

from cases import compare, json_lines, without_numbers
from facts import Trouble, run
from through_c import framed

# Lines that are no cases, and what is told of each.
NO_CASES = {
    "{}": "id: missing, expected a text of fewer than 2^56 bytes",
    "[]": "the line: expected an object, found a list of length 0",
    '{"id": a}': "column 8: not valid JSON",
}


def check(room, yazgult, report_bytes, pairs):
    """The cases as lines of JSON, through C and Python, and what is answered to lines that are no cases."""
    lines = json_lines(pairs)
    inputs = [line.encode() for line in lines]
    rest = report_bytes.Rest(run([f"{room}/frames", "json"], input=framed(inputs)))
    compare("C, by JSON", [without_numbers(json.loads(rest.take(rest.number()))) for _ in pairs], pairs)
    rest = report_bytes.Rest(run([f"{room}/frames", "text"], input=framed(inputs + [it.encode() for it in NO_CASES])))
    texts = [rest.take(rest.number()) for _ in inputs + list(NO_CASES)]
    wanted = [bytes([0 if "ok" in it else 1]) + "\n".join(it.get("ok", [it.get("text")])).encode() for _, it in pairs]
    if texts != wanted + [b"\2" + told.encode() for told in NO_CASES.values()]:
        raise Trouble("C, texts of JSON: not each is the one that is expected")
    compare("Python, by JSON", [without_numbers(json.loads(yazgult.answer_json(line))) for line in lines], pairs)
    for line, told in NO_CASES.items():
        if json.loads(yazgult.answer_json(line)) != {"error": told, "line": 1}:
            raise Trouble(f"{line} is answered by {yazgult.answer_json(line)}")
