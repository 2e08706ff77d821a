#!/usr/bin/env python3
"""Compares the machine that judges moves one by one with `check`, on captures of a simulated server.

    tests/machine_captures.py BENCH_MACHINE PROGRAM [--random N] [--calls N] [--edges N]

BENCH_MACHINE is crates/bench_machine/out/bench_machine, and PROGRAM turnaudit. Of each capture three certificates are judged by both: what
the server did, the one that `find` writes, and that one with users whose passwords are wrong, which breaks a rule if anything is signed.
Both have to say the same. The status is 1 if they differ.
"""

import argparse
import collections
import concurrent.futures
import os
import pathlib
import re
import subprocess
import tempfile

from call_captures import CallCase
from edge_captures import EdgeCase
from random_captures import USERS, Case

SAYS = re.compile(r"check: (true|false), machine: (true|false);")


def judged(machine, folder, users, certificate, paths):
    """What `check` and the machine say; None if the machine can't run."""
    done = subprocess.run([machine, "policy", users, certificate, *paths], cwd=folder, capture_output=True, text=True, check=False)
    says = SAYS.search(done.stdout)
    return (says.group(1), says.group(2)) if says else None


def compare(machine, program, build, seed):
    """What both say of the three certificates of a seed."""
    with tempfile.TemporaryDirectory() as name:
        folder = pathlib.Path(name)
        paths = build(seed).write(folder)
        command = [program, "find", "--policy", "policy", "--creds", "creds", *paths]
        found = subprocess.run(command, cwd=folder, capture_output=True, check=False)
        (folder / "found").write_bytes(found.stdout)
        (folder / "wrong").write_text("".join(f"{user}\texample.org\twrong\n" for user in USERS))
        trials = (("creds", "truth"), ("creds", "found"), ("wrong", "found"))
        return seed, [judged(machine, folder, users, certificate, paths) for users, certificate in trials]


def main():
    parser = argparse.ArgumentParser(description=__doc__, formatter_class=argparse.RawDescriptionHelpFormatter)
    parser.add_argument("machine")
    parser.add_argument("program")
    for name in ("random", "calls", "edges"):
        parser.add_argument(f"--{name}", type=int, default=200)
    words = parser.parse_args()
    machine, program = os.path.realpath(words.machine), os.path.realpath(words.program)
    counts, differ = collections.Counter(), 0
    with concurrent.futures.ProcessPoolExecutor() as pool:
        for build, count in ((Case, words.random), (CallCase, words.calls), (EdgeCase, words.edges)):
            jobs = [pool.submit(compare, machine, program, build, seed) for seed in range(1, count + 1)]
            for job in concurrent.futures.as_completed(jobs):
                seed, said = job.result()
                counts.update(said)
                if any(both is None or both[0] != both[1] for both in said):
                    differ += 1
                    print(f"{build.__name__} {seed}: {said}", flush=True)
    print(f"{counts[('true', 'true')]} conform by both, {counts[('false', 'false')]} by neither, {differ} captures differ")
    return 1 if differ else 0


if __name__ == "__main__":
    raise SystemExit(main())
