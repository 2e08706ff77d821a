#!/usr/bin/env python3
"""Proves and builds a program, crate by crate, and tells how far it is.

    tools/build.py              turnaudit; the program is crates/turnaudit/out/turnaudit then
    tools/build.py PROGRAM      another one: turnprep or turnexplain

What `rt` prints is shown only where a crate fails.
"""

import subprocess
import sys
import time

import crates

# Processor minutes of the proofs of a program and of all below it from nothing, summed up of the run in docs/GATE.md.
MINUTES = {"turnaudit": 95, "turnexplain": 115, "turnprep": 15}


def main(program="turnaudit"):
    if program not in MINUTES:
        print(f"{program} is no program of {', '.join(MINUTES)}", file=sys.stderr)
        return 2
    names = [*crates.below([program]), program]
    print(f"Proving {len(names)} crates and building {program}: from nothing some {MINUTES[program]} processor minutes, and 3 GB of memory.", flush=True)
    for number, name in enumerate(names, start=1):
        print(f"crate {number} of {len(names)}: {name} ", end="", flush=True)
        began = time.monotonic()
        command = ["rt", "run", "--", "--help"] if name == program else ["rt", "lib"]
        run = subprocess.run(command, cwd=crates.TOP / "crates" / name, stdout=subprocess.PIPE, stderr=subprocess.STDOUT, text=True)
        if run.returncode != 0:
            print("failed")
            print(run.stdout, end="")
            return 1
        print(f"{time.monotonic() - began:.0f} s", flush=True)
    return 0


if __name__ == "__main__":
    sys.exit(main(*sys.argv[1:]))
