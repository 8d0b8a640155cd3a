"""Writes a page for `man` of each program, and what shells complete of its words: all of what the program says that it takes."""

import gzip
import re

from commands import MORE, PAGES, VALUES

# The folder of the documents, below that which all is put into.
DOCUMENTS = "share/doc/yazgult"


def plain(text):
    """A text as roff takes it: no word of it is a command, and a hyphen stays one."""
    text = text.replace("\\", "\\e").replace("-", "\\-")
    return re.sub(r"^([.'])", r"\\&\1", text, flags=re.M)


def tag(option):
    names = [it for it in (option.short, option.name) if it]
    value = f" \\fI{plain(option.value)}\\fR" if option.value else ""
    return ", ".join(f"\\fB{plain(it)}\\fR" for it in names) + value


def chosen(option):
    """What is told of an option, with the values that it takes."""
    return option.about + (f" (one of {', '.join(option.choices)})" if option.choices else "")


def page(command, version):
    """The page of a program."""
    about = plain(f"{command.name} - {command.about[0].lower()}{command.about[1:]}")
    lines = [f'.TH {command.name.upper()} 1 "" "Yazgult {version}" "User Commands"', ".nh", ".SH NAME", about]
    lines += [".SH SYNOPSIS", ".nf", *(plain(it) for it in command.usage), ".fi", ".SH DESCRIPTION", f"{plain(command.about)}."]
    if command.name != command.program:
        lines.append(f"Its messages begin with \\fB{plain(command.program)}:\\fR.")
    for name, about in command.operands:
        lines += [".TP", f"\\fI{plain(name)}\\fR", plain(about)]
    lines.append(".SH OPTIONS")
    for option in command.options:
        lines += [".TP", tag(option), plain(chosen(option))]
    lines.append(".SH EXIT STATUS")
    for status, about in MORE[command.program]:
        lines += [".TP", f"\\fB{status}\\fR", plain(about)]
    lines += [".SH SEE ALSO", plain(f"{DOCUMENTS}/{PAGES[command.program]}")]
    return "\n".join(lines) + "\n"


def for_bash(command):
    """The options where a word begins with a hyphen, the values of an option after it, else files."""
    names = " ".join(it for option in command.options for it in (option.short, option.name) if it)
    cases = []
    for option in command.options:
        if option.value:
            kind = VALUES.get(option.value)
            words = f'-W "{" ".join(option.choices)}"' if option.choices else {"file": "-f", "folder": "-d"}.get(kind, '-W ""')
            cases.append(f'        {option.name}) COMPREPLY=($(compgen {words} -- "$word")); return ;;')
    name = re.sub(r"\W", "_", command.name)
    lines = [f"_{name}() {{", '    local word="${COMP_WORDS[COMP_CWORD]}" before="${COMP_WORDS[COMP_CWORD - 1]}"']
    if cases:
        lines += ['    case "$before" in', *cases, "    esac"]
    lines += ['    case "$word" in', f'        -*) COMPREPLY=($(compgen -W "{names}" -- "$word")) ;;']
    lines += ['        *) COMPREPLY=($(compgen -f -- "$word")) ;;', "    esac", "}"]
    return "\n".join([*lines, f"complete -o filenames -F _{name} {command.name}"]) + "\n"


def quoted(text):
    return "'" + text.replace("'", "'\\''") + "'"


def for_zsh(command):
    lines = [f"#compdef {command.name}", "", "_arguments -s \\"]
    for option in command.options:
        about = re.sub(r"([\[\]:\\])", r"\\\1", option.about)
        action = f"({' '.join(option.choices)})" if option.choices else {"file": "_files", "folder": "_files -/"}.get(VALUES.get(option.value), " ")
        value = f":{option.value}:{action}" if option.value else ""
        equals = "=" if option.value else ""
        forms = [it for it in (option.short, f"{option.name}{equals}") if it]
        lines += [f"    {quoted(f'{it}[{about}]{value}')} \\" for it in forms]
    return "\n".join([*lines, "    '*:file:_files'"]) + "\n"


def for_fish(command):
    lines = []
    for option in command.options:
        words = ["complete", "-c", command.name, "-l", option.name.lstrip("-")]
        words += ["-s", option.short.lstrip("-")] if option.short else []
        if option.value:
            words += ["-x", "-a", quoted(" ".join(option.choices))] if option.choices else ["-r"]
        lines.append(" ".join([*words, "-d", quoted(option.about)]))
    return "\n".join(lines) + "\n"


def packed(text):
    """As pages lie in a system: in the form of gzip, without a time or a name."""
    return gzip.compress(text.encode(), 9, mtime=0)
