"""The repository's crates, as crates.txt has them."""

from facts import ROOT, Trouble


def uses():
    """Each crate with what it uses, of the repository and of the kit."""
    lines = [it.split("#")[0] for it in (ROOT / "crates.txt").read_text(encoding="utf-8").splitlines()]
    return {it.split(":")[0].split()[0]: it.split(":")[1].split() for it in lines if ":" in it}


def below(name):
    """The repository's libraries that a crate stands on: those that it names, and all, lowest first."""
    ours = uses()
    named, every = [it for it in ours[name] if it in ours], []
    for it in named:
        every += [one for one in [*below(it)[1], it] if one not in every]
    return named, every


def hold(built, name):
    """Stops where a source that a built file stands on was written after it."""
    crates = [ROOT / "crates" / it for it in (*below(name)[1], name)]
    files = [it for crate in crates for part in ("src", "specs", "proofs") for it in (crate / part).rglob("*") if it.is_file()]
    newest = max(files, key=lambda it: it.stat().st_mtime_ns)
    if newest.stat().st_mtime_ns > built.stat().st_mtime_ns:
        raise Trouble(f"{newest.relative_to(ROOT)} is newer than {built.relative_to(ROOT)}: run rt ci")
