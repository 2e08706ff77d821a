#!/usr/bin/env python3
"""Tells where the time of the gate goes.

    tools/gate_times.py --run LOG     runs `rt ci` with the edits that are drawn (tools/edits.py) at the top of the repository and writes
                                      LOG: what it prints, each line behind the seconds since the start, and a line for each check that
                                      ended. Then prints what LOG says
    tools/gate_times.py LOG           prints what LOG says: for each crate the seconds of its proof, of its tests and of its edits, and
                                      the longest chain
    tools/gate_times.py --page LOG    writes that to docs/GATE.md, with the ten crates that took longest

A check is a process of `rattle` in the same session, which is seen in /proc five times a second, so that a check is told to a fifth of a
second; run by `setsid`, checks that others run on the machine aren't counted. Its exit status is that of `rt ci`. On a machine that does other work, the processor seconds are the ones to compare.
"""

import os
import re
import subprocess
import sys
import textwrap
import threading
import time
from collections import defaultdict
from dataclasses import dataclass, field

import crates

# The gate's proofs, tests and edits.
GATE = ["tools/edits.py", "--with", "rt", "ci"]
# Where the times stand in docs/GATE.md.
BEGIN, END = "<!-- what tools/gate_times.py writes begins -->", "<!-- and ends -->"
# How many crates stand there.
PAGE_ROWS = 10
# What `rt ci` runs for a crate.
PROOF, TESTS, EDIT, COMPILE = "proof", "tests", "edit", "compile"
CHECK = re.compile(r"\s*[\d.]+ @ (?P<crate>\w+) (?P<kind>\w+) (?P<wall>[\d.]+) s (?P<cpu>[\d.]+) cpu (?P<memory>\d+) MB$")
ENDED = re.compile(r"\s*([\d.]+) (?:@|rt:|==|\d+ passed)")
TICKS = os.sysconf("SC_CLK_TCK")
PAGE = os.sysconf("SC_PAGE_SIZE")


@dataclass
class Seen:
    """A check that runs."""

    crate: str
    kind: str
    began: float
    last: float
    cpu: float = 0.0
    memory: int = 0


def kind_of(words, folder):
    """What a command of `rattle` is run for, or None where it proves and compiles nothing."""
    if "/rt-edit-" in folder:
        return EDIT
    if "--test" in words:
        return TESTS
    if "--crate-checked" in words:
        return COMPILE
    return PROOF if words[1] in ("build", "check") else None


def look(pid, now):
    """The check that a process is, if it is one of this session."""
    try:
        if os.getsid(int(pid)) != os.getsid(0):
            return None
        with open(f"/proc/{pid}/cmdline", "rb") as it:
            words = it.read().decode(errors="replace").split("\0")
        if not words[0].endswith("/rattle") or "--crate-name" not in words:
            return None
        kind = kind_of(words, os.readlink(f"/proc/{pid}/cwd"))
        crate = words[words.index("--crate-name") + 1]
        return kind and Seen(crate, kind, now, now)
    except OSError:
        return None


def note(pid, seen, now):
    """Notes how much processor time and memory a check has taken so far. False where it has ended."""
    try:
        with open(f"/proc/{pid}/stat", encoding="utf-8", errors="replace") as it:
            numbers = it.read().rpartition(")")[2].split()
    except OSError:
        return False
    if numbers[0] == "Z":
        return False
    seen.cpu = (int(numbers[11]) + int(numbers[12])) / TICKS
    seen.memory = max(seen.memory, int(numbers[21]) * PAGE)
    seen.last = now
    return True


def watch(ended, write, start):
    """Writes a line for each check that ends, until all has ended."""
    running = {}
    while True:
        is_over = ended.wait(0.2)
        now = time.monotonic()
        for pid in os.listdir("/proc"):
            if pid.isdigit() and pid not in running:
                seen = look(pid, now)
                if seen:
                    running[pid] = seen
        for pid in [*running]:
            if not note(pid, running[pid], now):
                it = running.pop(pid)
                write(now - start, f"@ {it.crate} {it.kind} {it.last - it.began:.1f} s {it.cpu:.1f} cpu {it.memory >> 20} MB")
        if is_over:
            return


def run(log):
    """Runs the gate, and returns its exit status."""
    start, guard, ended = time.monotonic(), threading.Lock(), threading.Event()
    with open(log, "w", encoding="utf-8") as to:

        def write(seconds, text):
            with guard:
                to.write(f"{seconds:9.1f} {text}\n")
                to.flush()

        watcher = threading.Thread(target=watch, args=(ended, write, start))
        watcher.start()
        gate = subprocess.Popen(GATE, cwd=crates.TOP, stdout=subprocess.PIPE, stderr=subprocess.STDOUT, text=True, errors="replace")
        for line in gate.stdout:
            print(line, end="", flush=True)
            write(time.monotonic() - start, line.rstrip("\n"))
        gate.wait()
        ended.set()
        watcher.join()
    return gate.returncode


@dataclass
class Crate:
    """What the gate took for a crate, in seconds."""

    wall: dict = field(default_factory=lambda: defaultdict(float))
    cpu: dict = field(default_factory=lambda: defaultdict(float))
    edits: int = 0
    first_edit: float = 0.0
    memory: int = 0


def read(log):
    """What a log says of each crate, and the seconds from its start to its last line."""
    seen, last = defaultdict(Crate), 0.0
    with open(log, encoding="utf-8") as it:
        for line in it:
            end = ENDED.match(line)
            last = max(last, float(end[1])) if end else last
            found = CHECK.match(line)
            if not found:
                continue
            crate, kind, wall = seen[found["crate"]], found["kind"], float(found["wall"])
            crate.wall[kind] += wall
            crate.cpu[kind] += float(found["cpu"])
            crate.memory = max(crate.memory, int(found["memory"]))
            if kind == EDIT:
                crate.first_edit = crate.first_edit or wall
                crate.edits += 1
    return seen, last


def chains(seen, uses, seconds):
    """For each crate its longest chain, by the seconds that a crate's checks took: the proofs below it, one after the other, then its own
    proof or tests, then its edits."""
    found = {}

    def proofs(name):
        if name not in found:
            under = max((proofs(it) for it in uses.get(name, []) if it in seen), default=(0.0, []))
            found[name] = under[0] + seconds(seen[name])[PROOF], [*under[1], name]
        return found[name]

    for name, crate in seen.items():
        total, names = proofs(name)
        took = seconds(crate)
        beyond = max(0.0, took[TESTS] - took[PROOF])
        yield total + beyond + took[EDIT] + took[COMPILE], names


def rows(seen, most=None):
    """The table of what the gate took, the crates that took longest first, at most so many."""
    yield "| crate | proof | tests | edits | seconds of the edits | an edit | processor | MB |"
    yield "|---|---|---|---|---|---|---|---|"
    for name, it in sorted(seen.items(), key=lambda it: -sum(it[1].wall.values()))[:most]:
        # (one check more than there are edits: that the crate itself is proved over what the edits left)
        edits = max(it.edits - 1, 0) if it.edits > 1 else it.edits
        each = f"{(it.wall[EDIT] - it.first_edit) / (it.edits - 1):.0f}" if it.edits > 1 else ""
        cells = [it.wall[PROOF] + it.wall[COMPILE], it.wall[TESTS], edits, it.wall[EDIT], each, sum(it.cpu.values()), it.memory]
        yield f"| {name} | " + " | ".join(f"{c:.0f}" if isinstance(c, float) else f"{c}" for c in cells) + " |"


def said(log, most=None):
    """What a log says, line by line, of at most so many crates."""
    seen, last = read(log)
    minutes = {kind: sum(it.cpu[kind] for it in seen.values()) / 60 for kind in (PROOF, TESTS, EDIT, COMPILE)}
    parts = ", ".join(f"{kind} {it:.0f}" for kind, it in minutes.items())
    seconds, names = max(chains(seen, crates.uses(), lambda it: it.wall))
    of_processor, _ = max(chains(seen, crates.uses(), lambda it: it.cpu))
    yield f"It took {last / 60:.0f} minutes, and {sum(minutes.values()):.0f} processor minutes: {parts}."
    chain = (
        f"The longest chain takes {seconds / 60:.0f} minutes by the clock, next to other work: the proofs of {', '.join(names)}, then the tests "
        f"and edits of the last. By the seconds of the processor, which other work lengthens less, it takes {of_processor / 60:.0f}."
    )
    yield from textwrap.wrap(chain, 100)
    yield ""
    yield from rows(seen, most)


def write_page(log):
    """Puts what a log says between the marks of docs/GATE.md."""
    page = crates.TOP / "docs" / "GATE.md"
    front, _, rest = page.read_text(encoding="utf-8").partition(BEGIN)
    _, _, back = rest.partition(END)
    page.write_text(front + BEGIN + "\n".join(["", *said(log, PAGE_ROWS), ""]) + END + back, encoding="utf-8")


def main(words):
    if len(words) == 2 and words[0] == "--run":
        status = run(words[1])
        print("\n".join(said(words[1])))
        return status
    if len(words) == 2 and words[0] == "--page":
        write_page(words[1])
        return 0
    if len(words) == 1 and not words[0].startswith("-"):
        print("\n".join(said(words[0])))
        return 0
    print(__doc__.strip(), file=sys.stderr)
    return 2


if __name__ == "__main__":
    sys.exit(main(sys.argv[1:]))
