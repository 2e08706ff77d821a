#!/usr/bin/env python3
"""Tries the must-fail edits that stand beside the gate, those of tests/edits/CRATE.

An edit turns the meaning of a line of a crate, and the prover has to refuse the crate with it. The gate tries those of crates/*/must-fail
each time. Of those of tests/edits it tries a twentieth, other ones for each state of the repository: first of crates that changed since
all of theirs were tried, and of these up to MOST, since a merge has a time limit. tests/edits/tried is the ledger of what was tried.

    tools/edits.py                    tells which of them the gate tries now
    tools/edits.py --with COMMAND..   puts these beside the edits of crates/*/must-fail while COMMAND runs (`rt ci`, which tries all that it
                                      finds there, over the proofs that it has made), and ends with its status
    tools/edits.py --all              tries every edit of every crate, on a copy of the repository, and writes the ledger
    tools/edits.py CRATE..            tries every edit of these crates, and writes their lines of the ledger
    tools/edits.py --from LOG         writes the lines of the crates of which LOG, what `--with rt ci` printed, has every edit as refused, if
                                      they are still as they were then
"""

import functools
import hashlib
import os
import re
import shutil
import subprocess
import sys
import tempfile
from concurrent.futures import ThreadPoolExecutor, as_completed
from dataclasses import dataclass
from pathlib import Path

import crates

TOP = crates.TOP
EDITS = TOP / "tests" / "edits"
LEDGER = EDITS / "tried"
HEADING = "# crate, edits that were refused, digest of the crate and its edits, and what `rt version` said"
# One of so many edits is tried, and of the crates that changed at most MOST. Those of one crate are tried one after the other: at most EACH.
SHARE = 20
MOST = 20
EACH = 10
# How the names begin of edits that are only put beside those of the gate.
DRAWN = "drawn_"
# What `tell` prints of a crate, and `rt ci` of an edit that is refused.
TOLD = re.compile(r"edits of (?P<crate>\w+) \([^,]*, digest (?P<digest>\w+)\): ")
REFUSED = re.compile(rf"rt: must-fail (?P<crate>\w+)/{DRAWN}(?P<edit>\w+)\.edit: refused, as it must be")


@dataclass
class Line:
    """What the ledger says of a crate."""

    refused: int
    digest: str
    kit: str


def with_edits():
    """The crates that have edits beside the gate."""
    return sorted(folder.name for folder in EDITS.iterdir() if folder.is_dir())


def edits_of(crate):
    return sorted((EDITS / crate).glob("*.edit"))


def digest_of(crate):
    """A digest of the crate's sources, specs and proofs, and of its edits."""
    total = hashlib.sha256()
    folders = [TOP / "crates" / crate / part for part in ("src", "specs", "proofs")]
    files = [file for folder in folders for file in folder.rglob("*") if file.is_file()]
    for file in sorted(files) + edits_of(crate):
        content = hashlib.sha256(file.read_bytes()).hexdigest()
        total.update(f"{file.relative_to(TOP)} {content}\n".encode())
    return total.hexdigest()


@functools.cache
def kit():
    return subprocess.run(["rt", "version"], capture_output=True, text=True, check=True).stdout.strip()


def logic_of(version):
    """The part of a kit's line that names its logic: another kit with the same logic refuses the same."""
    return version.rpartition(" ")[2]


def ledger():
    """The lines of the ledger, by crate."""
    lines = {}
    if LEDGER.is_file():
        for text in LEDGER.read_text().splitlines():
            if not text.startswith("#"):
                crate, refused, digest, version = text.split(" ", 3)
                lines[crate] = Line(int(refused), digest, version)
    return lines


def write_ledger(lines):
    rows = [f"{crate} {it.refused} {it.digest} {it.kit}" for crate, it in sorted(lines.items()) if crate in with_edits()]
    LEDGER.write_text("\n".join([HEADING, *rows]) + "\n")


def state():
    """A digest of the repository as it was committed, by which edits are drawn."""
    return subprocess.run(["git", "rev-parse", "HEAD^{tree}"], cwd=TOP, capture_output=True, text=True, check=True).stdout.strip()


def has_changed(crate, line):
    """Whether a crate isn't as it was when all of its edits were refused, or the kit has another logic."""
    return line is None or line.digest != digest_of(crate) or logic_of(line.kit) != logic_of(kit())


def some_of(crates_left, most, tree):
    """As many edits, of few crates, since the first edit of a crate costs a check of all of it."""
    order = lambda it: hashlib.sha256(f"{tree} {it}".encode()).digest()
    for crate in sorted(crates_left, key=order):
        chosen = sorted(edits_of(crate), key=lambda edit: order(edit.name))[: max(0, min(most, EACH))]
        if chosen:
            yield crate, sorted(chosen)
        most -= len(chosen)


def changed_crates():
    known = ledger()
    return [crate for crate in with_edits() if has_changed(crate, known.get(crate))]


def drawn():
    """The edits that the gate tries now, by crate, each with whether the crate changed since all of its edits were tried."""
    changed, tree, tried = changed_crates(), state(), 0
    for crate, chosen in some_of(changed, MOST, tree):
        tried += len(chosen)
        yield crate, True, chosen
    share = -(-sum(len(edits_of(crate)) for crate in with_edits()) // SHARE)
    for crate, chosen in some_of([crate for crate in with_edits() if crate not in changed], share - tried, tree):
        yield crate, False, chosen


def put(crate, edits, top):
    """Puts edits beside those of the gate."""
    folder = top / "crates" / crate / "must-fail"
    folder.mkdir(exist_ok=True)
    for edit in edits:
        shutil.copyfile(edit, folder / f"{DRAWN}{edit.name}")


def take_away(top):
    """Takes away what `put` put there, also that of a run that was killed."""
    for edit in top.glob(f"crates/*/must-fail/{DRAWN}*.edit"):
        edit.unlink()
    for folder in top.glob("crates/*/must-fail"):
        if not any(folder.iterdir()):
            folder.rmdir()


def run_with(command):
    """Runs the command while the drawn edits stand beside those of the gate."""
    take_away(TOP)
    try:
        for crate, changed, chosen in drawn():
            put(crate, chosen, TOP)
        tell()
        return subprocess.run(command, cwd=TOP, check=False).returncode
    finally:
        take_away(TOP)


def tell():
    """Tells which edits are drawn, and which crates have others that haven't been tried since they changed."""
    count, left = 0, {crate: len(edits_of(crate)) for crate in changed_crates()}
    for crate, changed, chosen in drawn():
        count += len(chosen)
        if changed:
            left[crate] -= len(chosen)
        why = "changed since all were tried" if changed else "drawn"
        print(f"edits of {crate} ({why}, digest {digest_of(crate)}): {' '.join(edit.stem for edit in chosen)}")
    for crate, number in left.items():
        if number:
            print(f"edits of {crate} that are left for `make edits CRATES={crate}`: {number}")
    print(f"edits beside the gate: {count} of {sum(len(edits_of(crate)) for crate in with_edits())} are tried now", flush=True)


def try_all_of(crate, copy):
    """Tries all edits of a crate in a copy of the repository, and returns how many were refused, and what `rt` said."""
    run = subprocess.run(["rt", "must-fail", crate], cwd=copy, stdout=subprocess.PIPE, stderr=subprocess.STDOUT, text=True, errors="replace", check=False)
    said = [line for line in run.stdout.splitlines() if "must-fail" in line]
    return sum("refused, as it must be" in line for line in said), run.stdout


def prove_below(names, copy):
    """Proves the libraries on which these crates stand, lowest first; what earlier runs kept in out/ isn't proved again."""
    for name in crates.below(names, copy):
        if subprocess.run(["rt", "lib"], cwd=copy / "crates" / name, stdout=subprocess.DEVNULL, check=False).returncode:
            sys.exit(f"{name} isn't proved: no edit of a crate above it can be tried")


def try_and_write(names):
    """Tries every edit of these crates in a copy of the repository, several crates at a time, and writes what was refused to the ledger."""
    unknown = [crate for crate in names if crate not in with_edits()]
    if unknown:
        sys.exit(f"there are no edits of {', '.join(unknown)} in {EDITS}")
    failed, version = [], kit()
    with tempfile.TemporaryDirectory(prefix="edits-") as room:
        copy = Path(room) / "copy"
        shutil.copytree(TOP, copy, ignore=shutil.ignore_patterns(".git"))
        for crate in names:
            shutil.rmtree(copy / "crates" / crate / "must-fail", ignore_errors=True)
            shutil.copytree(EDITS / crate, copy / "crates" / crate / "must-fail")
        prove_below(names, copy)
        with ThreadPoolExecutor(int(os.environ.get("RT_JOBS", len(os.sched_getaffinity(0))))) as pool:
            tried = {pool.submit(try_all_of, crate, copy): crate for crate in names}
            for it in as_completed(tried):
                crate, (refused, said) = tried[it], it.result()
                print(f"{crate}: {refused} of {len(edits_of(crate))} refused", flush=True)
                if refused == len(edits_of(crate)):
                    write_ledger({**ledger(), crate: Line(refused, digest_of(crate), version)})
                else:
                    failed.append(crate)
                    print(said, flush=True)
    if failed:
        print(f"not all refused: {' '.join(failed)}", file=sys.stderr)
    return 1 if failed else 0


def write_from(log):
    """Writes the ledger's lines of the crates all of whose edits were refused in a run of the gate that printed this log."""
    digests, refused, version = {}, {}, kit()
    for line in Path(log).read_text(encoding="utf-8", errors="replace").splitlines():
        if told := TOLD.match(line):
            digests[told["crate"]] = told["digest"]
        if edit := REFUSED.match(line):
            refused.setdefault(edit["crate"], set()).add(edit["edit"])
    for crate, digest in sorted(digests.items()):
        names = {edit.stem for edit in edits_of(crate)}
        if digest == digest_of(crate) and names and names <= refused.get(crate, set()):
            write_ledger({**ledger(), crate: Line(len(names), digest, version)})
            print(f"{crate}: {len(names)} of {len(names)} refused")
    return 0


def main(words):
    if not words:
        tell()
        return 0
    if words[0] == "--with" and len(words) > 1:
        return run_with(words[1:])
    if words[0] == "--from" and len(words) == 2:
        return write_from(words[1])
    if words == ["--all"]:
        return try_and_write(with_edits())
    if not words[0].startswith("-"):
        return try_and_write(words)
    print(__doc__.strip(), file=sys.stderr)
    return 2


if __name__ == "__main__":
    sys.exit(main(sys.argv[1:]))
