"""Tells of a release in words: which commit it is of, what proved it, and how anyone makes it again."""

import elf
import repository
from facts import PROGRAMS, TRIPLE, commit, run, said, version
from libraries import SHARED, STATIC

PAGE = """# Where these files come from

They are version {version} of Yazgult, made of commit `{commit}`{changed}, by `scripts/release` of that commit.

- What is compiled here was proved before, by `rt ci`, over the logic `{logic}`, with the kit `{kit}`. The proof is about the sources: the
  compiler, the linker and the machine are trusted, as docs/promises tells.
- They are for Linux on x86-64, {triple}. The programs ask for {programs}, the shared library for {library}. The code is for processors of
  x86-64-v2, as nearly all since 2009 are: on another one a program ends with status 127, and the library doesn't look.
- `{archive}` asks C for {wanted}, and for nothing else.
- `{cc}` linked `{shared}`, and `{strip}` took away what is for debuggers.

## To make them again

With that kit on the `PATH`, in a clone of that commit, and SUMS the file SHA256SUMS beside this page:

```sh
rt ci
scripts/release{option}
(cd dist && sha256sum --check SUMS)
```

The bytes are the same where cc, strip, dpkg-deb and Python are those of Debian 12 or give the same as they do. Times in the files are that of
the commit, or SOURCE_DATE_EPOCH where that is set.
"""


def first_line(program):
    return run([program, "--version"]).decode().splitlines()[0]


def glibc(paths):
    return "glibc {}.{} or later".format(*max(map(elf.least_glibc, paths)))


def page(built, address=None):
    name, is_whole = commit()
    words = said("rt", "version").split()
    asked = sorted(elf.wanted(built.libraries / STATIC))
    return PAGE.format(
        version=version(),
        commit=name,
        changed="" if is_whole else ", with changes that are no commit's",
        kit=words[0],
        logic=words[words.index("logic") + 1],
        triple=TRIPLE,
        option=repository.option(address),
        programs=glibc([built.programs / it for it in PROGRAMS]),
        library=glibc([built.libraries / SHARED]),
        archive=STATIC,
        wanted=", ".join(f"`{it}`" for it in asked),
        shared=SHARED,
        cc=first_line("cc"),
        strip=first_line("strip"),
    )
