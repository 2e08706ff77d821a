#!/usr/bin/env python3
"""Measures the memory of the machine that judges the moves of a capture again and again.

    python3 bench/machine_memory.py BENCH_MACHINE FOLDER [--rounds 35]

BENCH_MACHINE is crates/bench_machine/out/bench_machine, and FOLDER has what bench/make_capture.py writes. With --datagrams 1000000 a
round is some 3,000,000 moves. The machine also gets, after each ten moves, an arrival that nothing answers. The script prints the
resident memory every ten seconds; the status is 1 if a move is refused, or if the memory grows by over 1 % after the first minute.
"""

import argparse
import pathlib
import re
import subprocess
import sys
import time

INPUTS = ["policy", "creds", "certificate", "client.pcapng", "peer.pcapng"]


def resident(process):
    """The resident memory of a process in KiB; None once it has ended."""
    try:
        text = pathlib.Path(f"/proc/{process.pid}/status").read_text()
    except OSError:
        return None
    found = re.search(r"VmRSS:\s+(\d+) kB", text)
    return found and int(found.group(1))


def main():
    arguments = argparse.ArgumentParser(description="Measures the memory of the machine over many moves.")
    arguments.add_argument("machine", type=pathlib.Path)
    arguments.add_argument("folder", type=pathlib.Path)
    arguments.add_argument("--rounds", type=int, default=35)
    options = arguments.parse_args()
    words = [options.machine.resolve(), "--rounds", str(options.rounds), *INPUTS]
    begin = time.monotonic()
    process = subprocess.Popen(words, cwd=options.folder, stdout=subprocess.PIPE, text=True)
    first, most = None, 0
    while process.poll() is None:
        time.sleep(10)
        memory, elapsed = resident(process), time.monotonic() - begin
        if memory is None:
            break
        print(f"{elapsed:6.0f} s {memory:9} KiB", flush=True)
        if elapsed >= 60:
            first = first or memory
            most = max(most, memory)
    said = process.stdout.read().strip()
    print(said)
    grows = first is not None and most > first * 1.01
    return 1 if process.wait() != 0 or "each accepted" not in said or grows else 0


if __name__ == "__main__":
    sys.exit(main())
