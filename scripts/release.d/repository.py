"""The address of the repository, which whoever makes a release may give: which one is taken, and how the files of a release name it.

Where none is given no file names one.
"""

import re
import shlex

from facts import Trouble

OPTION, BEGINS = "--repository", "https://"
# What would end an address where it stands between quotes, on a line or among the words of a command.
BARRED = re.compile(r"[^!-~]|[\"'`\\]")


def taken(address):
    """The address as it is given, or none; one that isn't taken ends the run, before anything is made."""
    if address is None:
        return None
    barred = BARRED.search(address)
    if not address.startswith(BEGINS):
        raise Trouble(f"the address {address!a} doesn't begin with {BEGINS}")
    if barred:
        raise Trouble(f"the address {address!a} holds U+{ord(barred[0]):04X}: it may hold printable ASCII without blanks, quotes and backslashes")
    if not re.match(r"[A-Za-z0-9]", address[len(BEGINS) :]):
        raise Trouble(f"the address {address!a} names no host")
    return address


def in_manifest(text, address):
    """The manifest of a crate, which names the address."""
    if not address:
        return text
    if re.search(r"^\s*(repository|\"repository\")\s*=", text, re.M) or text.count("\nlicense = ") != 1:
        raise Trouble("bindings/rust/Cargo.toml names a repository of its own, or no license, before which the given one is put")
    return text.replace("\nlicense = ", f'\nrepository = "{address}"\nlicense = ')


def in_wheel(address):
    """The lines by which a wheel names it."""
    return [f"Project-URL: Homepage, {address}"] * bool(address)


def in_debian(address):
    """The field of a package for Debian that names it."""
    return f"Homepage: {address}\n" * bool(address)


def option(address):
    """The words that give it to scripts/release once more, as a shell reads them."""
    return f" {OPTION} {shlex.quote(address)}" * bool(address)
