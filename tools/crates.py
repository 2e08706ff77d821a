"""What crates.txt says of the repository's crates."""

from pathlib import Path

TOP = Path(__file__).resolve().parent.parent


def named_by(top=TOP):
    """The crates, lowest first as crates.txt has them, each with all that it names."""
    named = {}
    for line in (top / "crates.txt").read_text(encoding="utf-8").splitlines():
        name, colon, below = line.partition("#")[0].partition(":")
        if colon:
            named[name.split()[0]] = below.split()
    return named


def uses(top=TOP):
    """The crates, lowest first, each with the crates of the repository that it names."""
    named = named_by(top)
    return {name: [below for below in all_below if below in named] for name, all_below in named.items()}


def ports(names, top=TOP):
    """The ported crates of the kit that these crates and those below them name."""
    named = named_by(top)
    return sorted({port for name in [*below(names, top), *names] for port in named.get(name, []) if port not in named})


def below(names, top=TOP):
    """The crates on which these stand, lowest first, without them where no other of them stands on them."""
    known, needed = uses(top), set()
    for name in reversed(known):
        if name in names or name in needed:
            needed.update(known[name])
    return [name for name in known if name in needed]
