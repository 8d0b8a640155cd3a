"""Measures calls of the library: the stack that they take, and what reports cost through the Rust crate and through Python."""

import os
import shutil
import subprocess
import sys
from pathlib import Path

from cases import json_lines, report_files
from facts import ROOT, Trouble, run
from through_c import compiled, framed
from through_rust import Crate


def stack(room, yazgult, report_bytes, pairs):
    """Says how many bytes of stack the calls take."""
    compiled(room, "stack", "-lpthread")
    depth, line = nested(yazgult)
    told = {
        f"{len(pairs)} cases, as bytes": ([], [report_bytes.bytes_of(case) for case, _ in pairs]),
        f"{len(pairs)} cases, as JSON": (["json"], [it.encode() for it in json_lines(pairs)]),
        f"JSON that is nested {depth} lists deep": (["json"], [line]),
    }
    for what, (words, inputs) in told.items():
        found = [int(it) for it in run([f"{room}/stack", *words], input=framed(inputs)).split()]
        print(f"bindings: {what}: at most {max(found) / 1024:.1f} KiB of stack")


def nested(yazgult):
    """A line of JSON that is nested as deep as it is read: deeper ones are told as not valid."""
    for depth in range(1000, 0, -1):
        line = '{"id": ' + "[" * depth + "]" * depth + "}"
        if "not valid JSON" not in yazgult.answer_json(line):
            return depth, line.encode()
    raise Trouble("no nested JSON is read")


# How a source is handed over from Rust.
SOURCES = {"text": "text", "kept": "number among kept ones"}


def bench(room, anstyle, names):
    if not shutil.which("valgrind"):
        raise Trouble("there is no valgrind on this machine")
    files = report_files(names)
    program = Crate(room, anstyle).examples() / "cases"
    for file in files:
        # Reading the file is in both counts.
        once, often = (counted([program, "draw", str(times), str(file)], room) for times in (1, 11))
        if once is None or often is None:
            print(f"{file.stem}: a case of it is refused", flush=True)
            continue
        told = run([program, "draw", "200", file]).decode().strip()
        print(f"{file.stem}: {(often - once) // 10:,} instructions a round; without valgrind: {told}", flush=True)
        by_python(file, room)
    for lines in (1000, 10000):
        for how in SOURCES:
            once, often = (counted([program, "source", str(times), str(lines), how], room) for times in (1, 101))
            print(f"a line of {lines:,}, by the source's {SOURCES[how]}: {(often - once) // 100:,} instructions a report", flush=True)


def by_python(file, room):
    """Says what a round costs through Python, where spans count bytes, and what JSON alone would."""
    os.environ["PYTHONHASHSEED"] = "0"  # so that each run counts the same
    program = [sys.executable, ROOT / "bindings" / "python" / "bench.py"]
    found = {how: [counted([*program, how, file, str(times)], room) for times in (10, 30)] for how in ("draw", "json")}
    if any(None in it for it in found.values()):
        return
    draw, line = ((often - once) // 20 for once, often in found.values())
    print(f"{file.stem}, through Python: {draw:,} instructions a round; by json.dumps and answer_json {line:,}", flush=True)


def counted(words, room):
    """The instructions that a run takes, as valgrind counts them; nothing where the program fails."""
    out = Path(room, "callgrind.out")
    ran = subprocess.run(["valgrind", "--tool=callgrind", f"--callgrind-out-file={out}", *words], capture_output=True)
    found = [it for it in out.read_text().splitlines() if it.startswith(("summary:", "totals:"))]
    return int(found[-1].split()[1]) if ran.returncode == 0 else None
