"""Tries the library from C: reports as bytes, those that calls build, and the headers."""

import json
import shutil
import subprocess
from pathlib import Path

from cases import compare, without_numbers
from facts import ROOT, Trouble, run

HOME = ROOT / "bindings" / "c"
REPLAY = ROOT / "crates" / "replay" / "out" / "replay"
STRICT = ["-Wall", "-Wextra", "-Wconversion", "-Wpedantic", "-Werror"]
SANITIZED = ["-O1", "-g", "-fsanitize=address,undefined", "-fno-sanitize-recover=all"]
# How many reports with changed bytes are drawn, and how many are built by random calls.
MUTATED, RANDOM = 2000, 5000


def compiled(room, name, *words):
    """Compiles a program over the static library."""
    run(["cc", "-O2", "-Wall", "-Wextra", "-Werror", f"-I{HOME}", "-o", f"{room}/{name}", HOME / f"{name}.c", f"{room}/libyazgult.a", *words])


def framed(inputs):
    """Inputs as the programs in C read them: each after its length."""
    return b"".join(len(it).to_bytes(8, "little") + it for it in inputs)


def check(room, report_bytes, pairs):
    """The cases as bytes, and reports with changed bytes."""
    for name in ("example", "compiler", "frames", "mutate"):
        compiled(room, name)
    inputs = [report_bytes.bytes_of(case) for case, _ in pairs]
    frames = framed(inputs)
    given = Path(room, "frames.bin")
    given.write_bytes(frames)
    rest = report_bytes.Rest(run([f"{room}/frames"], input=frames))
    compare("C", [without_numbers(report_bytes.answer_of(case, rest.take(rest.number()))) for case, _ in pairs], pairs)
    print(f"bindings: C: {run([f'{room}/mutate', given, str(MUTATED)]).decode().strip()}", flush=True)
    compiled(room, "kept", "-lpthread")
    print(f"bindings: C: {run([f'{room}/kept', '1000']).decode().strip()}", flush=True)


def check_builder(room):
    """What is built by calls in C: the programs draw what `replay` does of the same reports, which people wrote as JSON."""
    if not REPLAY.exists():
        raise Trouble(f"there is no {REPLAY}: rt ci builds it, and so does rt run in crates/replay")
    errors = ["prices.calc"], ["--color", "prices.calc"]
    for name, calls in (("example", [[]]), ("compiler", errors)):
        given = HOME / f"{name}.jsonl"
        drawn = [json.loads(it)["ok"] for it in run([REPLAY, given]).splitlines()]
        for at, words in enumerate(calls):
            ran = subprocess.run([f"{room}/{name}", *words], cwd=HOME, stdout=subprocess.PIPE, stderr=subprocess.STDOUT)
            if ran.stdout.decode() != "".join(f"{it[at]}\n\n" for it in drawn):
                raise Trouble(f"{name}.c prints other reports than replay draws of {given}: {ran.stdout.decode()}")
    check_headers()
    check_random(room)


def check_headers():
    """Each compiler that is there takes the headers without a warning, in C99 and in C++11."""
    for language, named in (("c99", ("cc", "gcc", "clang")), ("c++11", ("c++", "g++", "clang++"))):
        found = [it for it in named if shutil.which(it)]
        for compiler in found:
            for name in ("example", "compiler"):
                words = ["-x", "c" if language == "c99" else "c++", f"-std={language}", *STRICT, f"-I{HOME}", "-fsyntax-only"]
                run([compiler, *words, HOME / f"{name}.c"])
        print(f"bindings: C, headers in {language}: no warning of {', '.join(found) or 'any compiler, since there is none'}", flush=True)


def check_random(room):
    """Random calls come to what the same reports do as JSON, under sanitizers where the compiler has them."""
    wrap = [f"-Wl,--wrap={it}" for it in ("malloc", "realloc")]
    made = ["-std=c99", *STRICT, f"-I{HOME}", "-o", f"{room}/random", HOME / "random.c", f"{room}/libyazgult.a", *wrap]
    is_sanitized = subprocess.run(["cc", *SANITIZED, *made], stdout=subprocess.DEVNULL, stderr=subprocess.DEVNULL).returncode == 0
    if not is_sanitized:
        run(["cc", "-O2", *made])
    told = run([f"{room}/random", RANDOM]).decode().strip()
    print(f"bindings: C, random calls{'' if is_sanitized else ', without sanitizers'}: {told}", flush=True)
