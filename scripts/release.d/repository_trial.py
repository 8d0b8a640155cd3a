"""Tries what the address of a repository changes in a release: which addresses are taken, and what each kind of file is with one.

The files that are built come of a few lines of C here, so neither a kit nor what it proved is asked for.
"""

import email
import gzip
import io
import json
import shutil
import tarfile
import zipfile

import crate
import debian
import layout
import libraries
import provenance
import repository
import wheel
from facts import PROGRAMS, ROOT, Trouble, run

ADDRESS = "https://a.example/one?of=these&~#$(1);*"
SECONDS = 1_000_000_000
# Addresses that aren't taken, each with what is told of it.
REFUSED = {
    "": "doesn't begin with https://",
    "http://a.example/b": "doesn't begin with https://",
    "HTTPS://a.example/b": "doesn't begin with https://",
    "a.example/b": "doesn't begin with https://",
    "https://": "names no host",
    "https:///b": "names no host",
    "https://a.example/b c": "holds U+0020",
    "https://a.example/b\nlinks = 1": "holds U+000A",
    'https://a.example/"': "holds U+0022",
    "https://a.example/'": "holds U+0027",
    "https://a.example/`": "holds U+0060",
    "https://a.example/\\": "holds U+005C",
    "https://a.example/\u00e9": "holds U+00E9",
    "https://a.example/\x7f": "holds U+007F",
}


def same(what, found, expected):
    if found != expected:
        raise Trouble(f"{what} is {found!r}, and not {expected!r}")


def refuses(room):
    """scripts/release tells of an address that isn't taken, and makes nothing."""
    for address, told in REFUSED.items():
        try:
            run([ROOT / "scripts" / "release", repository.OPTION, address, room / "none"])
        except Trouble as trouble:
            if f"release: the address {address!a} {told}" not in str(trouble) or (room / "none").exists():
                raise
        else:
            raise Trouble(f"a release is made with the address {address!a}")


def stand_ins(room):
    """What stands in for programs and libraries, and for the page of licences."""
    room.mkdir()
    (room / "a.c").write_text("#include <stdio.h>\nint main(void) { return puts(\"\"); }\n")
    run(["cc", "-o", "program", "a.c"], cwd=room)
    run(["cc", "-shared", "-fPIC", "-o", libraries.SHARED, "a.c"], cwd=room)
    for name in (*PROGRAMS, libraries.STATIC, "LICENCES.md"):
        shutil.copy(room / "program", room / name)
    return layout.Built(room, room), room / "LICENCES.md"


def made(room, built, licences, address):
    """The crate, the wheel and each package that asks no program for anything, made in a folder."""
    out = room / "out"
    out.mkdir(parents=True)
    crate.make(room / "crate", built, licences, SECONDS, out, address)
    wheel.make(room / "wheel", built, licences, SECONDS, out, address)
    for it in debian.packages(built) if shutil.which("dpkg-deb") else []:
        if it.name != "yazgult":
            debian.make(it, room, built, licences, SECONDS, out, address)
    return {it.name: it.read_bytes() for it in sorted(out.iterdir())}


def manifest_in(packed):
    with tarfile.open(fileobj=io.BytesIO(gzip.decompress(packed))) as tar:
        return next(tar.extractfile(it).read().decode() for it in tar if it.name.endswith("/Cargo.toml"))


def homepage_in(packed):
    with zipfile.ZipFile(io.BytesIO(packed)) as wheel_file:
        text = next(wheel_file.read(it) for it in wheel_file.namelist() if it.endswith("/METADATA"))
    return email.message_from_bytes(text).get_all("Project-URL")


def try_crate(packed, room, address):
    """The manifest is the binding's, but for a line, and cargo reads the address in it."""
    text = manifest_in(packed)
    own = (ROOT / "bindings" / "rust" / "Cargo.toml").read_text(encoding="utf-8")
    named = f'repository = "{address}"\n'
    same("the crate's manifest but for the address", text.replace(named, ""), own)
    same("how often it names it", text.count(named), int(bool(address)))
    if shutil.which("cargo"):
        for name, content in (("Cargo.toml", text), ("build.rs", ""), ("src/lib.rs", "")):
            layout.write(content, room / "read" / name)
        told = run(["cargo", "metadata", "--no-deps", "--offline", "--format-version", "1"], cwd=room / "read")
        same("what cargo reads", json.loads(told)["packages"][0]["repository"], address)


def try_files(files, room, address):
    for name, packed in files.items():
        if name.endswith(".crate"):
            try_crate(packed, room, address)
        elif name.endswith(".whl"):
            same(f"the homepage of {name}", homepage_in(packed), [f"Homepage, {address}"] if address else None)
        else:
            found = run(["dpkg-deb", "-f", room / "out" / name, "Homepage"]).decode().strip()
            same(f"the homepage of {name}", found, address or "")


def try_control(built):
    """Each control file has the field once with an address, and not without one."""
    for package in debian.packages(built):
        for address in (ADDRESS, None):
            text = debian.control(package, ROOT / "bindings", address)
            same(f"the control file of {package.name}", text.count("Homepage: "), int(bool(address)))
            same("its other fields", text.replace(f"Homepage: {address}\n", ""), debian.control(package, ROOT / "bindings"))


def try_provenance():
    """A shell reads the address in the command that makes the files again."""
    line = next(it for it in provenance.PAGE.splitlines() if it.startswith("scripts/release"))
    for address in (ADDRESS, None):
        words = run(["sh", "-c", f"printf '%s\\n' {line.format(option=repository.option(address))}"]).decode().split("\n")[:-1]
        same("the command", words, ["scripts/release", *([repository.OPTION, address] if address else [])])


def run_all(room):
    """Tries all of it in a folder, and says what came of it."""
    room.mkdir()
    refuses(room)
    built, licences = stand_ins(room / "built")
    for address in (ADDRESS, None):
        where = room / ("with" if address else "without")
        files = made(where / "first", built, licences, address)
        same("a second run", made(where / "second", built, licences, address) == files, True)
        try_files(files, where / "first", address)
    try_control(built)
    try_provenance()
    print(f"release-tests: {len(REFUSED)} addresses are refused; one that is taken stands in the crate, the wheel and the packages", flush=True)
