"""What the programs take on their command lines: as each says it itself, by `--help` or by how it is to be called.

`snip` and `tidy` have no `--help`: they tell how they are called, and what each of their words is for stands in WORDS here. What no program
says, as its statuses, stands in MORE.
"""

import re
import subprocess
from dataclasses import dataclass, field
from typing import List, Optional

from facts import INSTALLED_AS, Trouble

WORDS = {
    "snip": {
        "about": "Draws one report from a command line: a file's text with a mark below some of its bytes",
        "--unicode": "Draw strokes with line-drawing characters",
        "--text": "Write the report without graphics, as it is read aloud",
        "--short": "Write the report on one line",
        "--styled": "Write colors, on a terminal or not",
        "--width": "The width in columns that lines are cut to; else 140",
        "FILE": "The file whose text is shown, in UTF-8",
        "START": "The number of bytes before the mark",
        "END": "The number of bytes before what stands after the mark",
        "TITLE": "The title of the report, an error",
        "LABEL": "What is told of the marked bytes",
    },
    "tidy": {
        "about": "Looks through a file by three rules, and prints what each finds and how to mend it: blanks at a line's end, tabs, and "
        "a last line without a line feed",
        "--log": "Write the same into the file LOG, plain, and print it in colors",
        "FILE": "The file that is looked through, in UTF-8",
    },
}
MORE = {
    "snip": [
        ("0", "the report was printed"),
        ("1", "it was not: the file can't be read, the report is refused, or output can't be written"),
        ("2", "the arguments are wrong"),
    ],
    "replay": [
        ("0", "all was done, and --check found no difference"),
        ("1", "--check found a difference"),
        ("2", "the arguments are wrong, a file can't be read, an answer can't be written, memory runs out, or a line is no report"),
    ],
    "redraw": [
        ("0", "no error was drawn, and no build failed"),
        ("1", "an error was drawn, or cargo's last message says that the build failed"),
        ("2", "the arguments are wrong, an input can't be read or is none that is known, or output can't be written"),
    ],
    "tidy": [
        ("0", "no rule found anything"),
        ("1", "what the rules found was printed"),
        ("2", "neither: the arguments are wrong, the file can't be read, or output can't be written"),
    ],
}
# The page of the documents that has all of it.
PAGES = {"snip": "README.md", "replay": "docs/REPORTS.md", "redraw": "docs/REDRAW.md", "tidy": "docs/TIDY.md"}
# Values that are files or folders.
VALUES = {"LOG": "file", "FILE": "file", "EXPECTED": "file", "DIR": "folder"}

OPTION = re.compile(r"\s+(?:(-\w), |    )(--[\w-]+)(?: <(\w+)>)?(?:  +(.*))?$")
OPERAND = re.compile(r"  [\[<](\w+)[\]>](?:\.\.\.)?(?:  +(.*))?$")
CHOICES = re.compile(r" \[possible values: (.*)\]$")


@dataclass
class Option:
    """One that stands alone, or before a value; `choices` are all values that there are, where these are listed."""

    name: str
    short: Optional[str]
    value: Optional[str]
    about: str
    choices: List[str] = field(default_factory=list)


@dataclass
class Command:
    """`name` is what it is called where it is installed, and `usage` how it is called, a line each."""

    program: str
    name: str
    about: str
    usage: List[str]
    options: List[Option]
    operands: List[tuple]


def of_help(program, text):
    """Reads what `--help` prints."""
    about, _, rest = text.partition("\n\nUsage: ")
    usage, _, rest = rest.partition("\n\n")
    options, operands, last = [], [], None
    for line in rest.splitlines():
        option, operand = OPTION.match(line), OPERAND.match(line)
        if option:
            last = [option[2], option[1], option[3], option[4] or ""]
            options.append(last)
        elif operand:
            last = [operand[1], operand[2] or ""]
            operands.append(last)
        elif line.startswith("  ") and last:
            last[-1] = f"{last[-1]} {line.strip()}".strip()
    made = [Option(*it[:3], CHOICES.sub("", it[3]), listed(it[3])) for it in options]
    return about, [it.strip() for it in usage.splitlines()], made, [tuple(it) for it in operands]


def listed(about):
    """The values that the line of an option lists."""
    found = CHOICES.search(about)
    return found[1].split(", ") if found else []


def of_usage(program, text):
    """Reads how a program is called, and takes from WORDS what each word is for."""
    found = re.match(r"usage: (.*)", text)
    if not found:
        raise Trouble(f"{program} doesn't tell how it is called: {text[:90]}")
    words, told = found[1], WORDS[program]
    options = [tuple(filter(None, it)) for it in re.findall(r"\[(--[\w-]+)(?: (\w+))?\]", words)]
    operands = re.findall(r"[A-Z]+", re.sub(r"\[--[^\]]*\]", "", words))
    unlike = ({it[0] for it in options} | set(operands)) ^ (set(told) - {"about"})
    if unlike:
        raise Trouble(f"{program} and its page don't name the same words, as {sorted(unlike)[0]}: {words}")
    made = [Option(it[0], None, it[1] if len(it) > 1 else None, told[it[0]]) for it in options]
    return told["about"], [words], made, [(it, told[it]) for it in operands]


def command(program, path):
    """What a program takes, asked of the program that stands at a path."""
    asked = [str(path)] if program in WORDS else [str(path), "--help"]
    ran = subprocess.run(asked, stdin=subprocess.DEVNULL, stdout=subprocess.PIPE, stderr=subprocess.PIPE, env={})
    text = (ran.stderr if program in WORDS else ran.stdout).decode()
    about, usage, options, operands = (of_usage if program in WORDS else of_help)(program, text)
    if not usage or not operands or program not in WORDS and not options:
        raise Trouble(f"what {program} takes can't be read from what it prints: {text[:200]}")
    name = INSTALLED_AS.get(program, program)
    return Command(program, name, about, [re.sub(rf"^{program}\b", name, it) for it in usage], options, operands)
