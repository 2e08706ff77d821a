#!/usr/bin/env python3
"""Times `turnaudit find`, `check` and `audit` with 1, 2 and 4 workers, on captures made by make_capture.py, beside programs that read the same files.

    python3 bench/times.py [--clients 24 1000] [--datagrams 1000000] [--runs 5] [--workers 1 2 4] [--markdown | --readme]

Of each number of clients the programs take turns, round after round, on this machine, with the files in its cache; of each the median counts, with the least and
the greatest. Beside the seconds on the wall stand those of the processors (cpu), in the programs and in the system for them, both as a ratio to those of `capinfos` in
the same rounds (of `sha1sum` where that isn't installed), and the greatest resident set. The load is told before and after. The last line of each table tells whether
all answers were the same, the certificates of `find` among themselves. With --readme it prints the row of README.md's table.

It runs bench/make_capture.py as a program. It imports no file of this repository, and none imports it.
"""

import argparse
import hashlib
import os
import pathlib
import shutil
import statistics
import subprocess
import sys
import tempfile
import time
from dataclasses import dataclass

HERE = pathlib.Path(__file__).resolve().parent
PROGRAM = HERE.parent / "crates/turnaudit/out/turnaudit"


@dataclass
class Took:
    """What a command took: seconds on the wall and of the processors, and the greatest resident set in MB."""

    wall: float
    cpu: float
    megabytes: float


def timed(words, out):
    """What a command takes, whose answer goes to the file."""
    began = time.monotonic()
    with out.open("wb") as stream:
        run = subprocess.Popen(words, stdout=stream, stderr=subprocess.PIPE)
        said = run.stderr.read()
        _, ended, usage = os.wait4(run.pid, 0)
    wall = time.monotonic() - began
    if ended != 0:
        sys.exit(f"{words[0]} ended with status {os.waitstatus_to_exitcode(ended)}: {said!r} {out.read_bytes()[:300]!r}")
    return Took(wall, usage.ru_utime + usage.ru_stime, usage.ru_maxrss * 1024 / 1e6)


def programs_on(folder, workers):
    """The programs, by the name that the table has for each: the command that it is timed by."""
    captures = [folder / "client.pcapng", folder / "peer.pcapng"]
    inputs = ["--policy", folder / "policy", "--creds", folder / "creds"]
    programs = {"sha1sum": ["sha1sum", *captures]}
    if shutil.which("capinfos"):
        programs["capinfos"] = ["capinfos", *captures]
    for command, more in (("find", []), ("check", ["--cert", folder / "certificate"]), ("audit", [])):
        for count in workers:
            programs[f"turnaudit {command} --workers {count}"] = [PROGRAM, command, *inputs, *more, "--workers", str(count), *captures]
    return programs


def load():
    return ", ".join(f"{number:.1f}" for number in os.getloadavg())


def medians(takes):
    return Took(*(statistics.median(getattr(take, part) for take in takes) for part in ("wall", "cpu", "megabytes")))


def table(rows, markdown):
    """The rows with what each takes, also in units of capinfos."""
    unit = "capinfos" if "capinfos" in rows else "sha1sum"
    one = medians(rows[unit])
    heads = ["", "wall", "least to greatest", "cpu", f"wall/{unit}", f"cpu/{unit}", "MB"]
    lines = [heads] + [["---"] * len(heads)] * markdown
    for name, takes in rows.items():
        took = medians(takes)
        walls = [take.wall for take in takes]
        line = [f"`{name}`" if markdown else name, f"{took.wall:.2f}", f"{min(walls):.2f} to {max(walls):.2f}", f"{took.cpu:.2f}"]
        lines.append([*line, f"{took.wall / one.wall:.2f}", f"{took.cpu / one.cpu:.2f}", f"{max(take.megabytes for take in takes):.0f}"])
    for line in lines:
        print("| " + " | ".join(line) + " |" if markdown else f"{line[0]:30}" + "".join(f"{cell:>20}" for cell in line[1:]))


def readme(rows):
    """The row of the table of README.md: what `audit` takes by one worker and by four, and the greatest memory."""
    unit = "capinfos" if "capinfos" in rows else "sha1sum"
    by_one, by_four = (rows[f"turnaudit audit --workers {count}"] for count in (1, 4))
    memory = max(take.megabytes for take in by_one + by_four)
    took = f"{medians(by_one).wall:.1f} s, by 4 workers {medians(by_four).wall:.1f} s"
    print(f"| `turnaudit audit` | a million datagrams (`{unit}`: {medians(rows[unit]).wall:.1f} s) | {took} | {memory:.0f} MB |")


def measure(folder, clients, asked):
    make = [sys.executable, HERE / "make_capture.py", folder, "--clients", str(clients), "--datagrams", str(asked.datagrams)]
    subprocess.run(make, check=True)
    size = sum((folder / name).stat().st_size for name in ("client.pcapng", "peer.pcapng"))
    print(f"\n{asked.datagrams:,} datagrams, {clients:,} clients, {size / 1e6:.0f} MB, {os.cpu_count()} cores, medians of {asked.runs}; load {load()}", end="", flush=True)
    programs = programs_on(folder, asked.workers)
    rows = {name: [] for name in programs}
    answers, certificates = set(), set()
    for _ in range(asked.runs):
        for name, words in programs.items():
            out = folder / "answer"
            rows[name].append(timed(words, out))
            if " find " in name:
                # Not read whole: a program that is started next would count with the memory that it takes here.
                with out.open("rb") as certificate:
                    certificates.add(hashlib.file_digest(certificate, "sha256").digest())
            elif "--workers" in name:
                answers.add(out.read_bytes())
    print(f" before, {load()} after\n")
    if asked.readme:
        readme(rows)
    else:
        table(rows, asked.markdown)
    told = " | ".join(answer.decode().splitlines()[1] for answer in answers)
    print(f"\n{'one answer' if len(answers) == 1 else f'{len(answers)} ANSWERS'}: {told}")
    if len(certificates) > 1:
        print(f"{len(certificates)} CERTIFICATES")
    return len(answers) == 1 and len(certificates) <= 1


def main():
    words = argparse.ArgumentParser(description="Times turnaudit beside other programs on made captures.")
    words.add_argument("--clients", type=int, nargs="+", default=[24, 1000])
    words.add_argument("--datagrams", type=int, default=1_000_000)
    words.add_argument("--runs", type=int, default=5)
    words.add_argument("--workers", type=int, nargs="+", default=[1, 2, 4])
    form = words.add_mutually_exclusive_group()
    form.add_argument("--markdown", action="store_true", help="print tables as docs/MEASURED.md has them")
    form.add_argument("--readme", action="store_true", help="print the row of README.md's table")
    asked = words.parse_args()
    if asked.readme and not {1, 4} <= set(asked.workers):
        words.error("--readme needs the workers 1 and 4")
    same = True
    for clients in asked.clients:
        with tempfile.TemporaryDirectory() as name:
            same = measure(pathlib.Path(name), clients, asked) and same
    return 0 if same else 1


if __name__ == "__main__":
    sys.exit(main())
