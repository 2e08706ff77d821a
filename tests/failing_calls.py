#!/usr/bin/env python3
"""Refuses turnprep and turnexplain each allocation, each opening, read, write, sync and link in turn.

    tests/failing_calls.py TURNPREP TURNEXPLAIN [--every N]

If an allocation is refused, the status is 3, else 4, each with one line; what is on standard output is the beginning of the answer, and no
file is left. Reads and writes of a byte at a time change nothing. With `--every 10` each tenth call of a command fails, the first 300 of
them all. It needs gcc.
"""

import argparse
import os
import pathlib
import subprocess
import sys
import tempfile

HERE = pathlib.Path(__file__).resolve().parent
ANSWERED = "--policy ../../examples/coturn-channels-two-files/policy --creds ../../examples/coturn-channels-two-files/creds"
CAPTURES = "../../examples/coturn-channels-two-files/client.pcapng ../../examples/coturn-channels-two-files/peer.pcapng"
BROKEN = "--policy ../two-lanes-broken/policy ../two-lanes-broken/cap.pcapng"
# The commands of each program, each on a small input. OUT is a folder.
PREPARING = {
    "join": "join -o OUT/ring.pcapng inputs/ring1.pcapng inputs/ring2.pcapng",
    "policy": "policy --turnserver-conf inputs/two.conf",
    "users": "users --secret-file inputs/north --realm realm inputs/rest-secret.pcapng",
    "users of a configuration": "users --turnserver-conf inputs/plain.conf",
    "translate": "translate --policy inputs/policy-outer --external-ip 198.18.0.1/192.0.2.1 -o OUT inputs/external-ip.pcapng",
    "reassemble": "reassemble -o OUT inputs/external-ip.pcapng",
    "look": "look --policy inputs/policy inputs/relay2relay-coturn.pcapng",
    "look without a policy": "look inputs/relay2relay-coturn.pcapng",
    "cut": "cut --policy inputs/policy -o OUT inputs/relay2relay-coturn.pcapng",
    "ready": "ready --policy inputs/policy --creds inputs/creds -o OUT/made inputs/relay2relay-coturn.pcapng",
    "ready of a configuration": "ready --turnserver-conf inputs/plain.conf -o OUT/made inputs/ring1.pcapng inputs/ring2.pcapng",
}
EXPLAINING = {
    "verdict": f"verdict {ANSWERED} {CAPTURES}",
    "verdict of a breach": f"verdict {BROKEN}",
    "verdict as JSON": f"verdict {BROKEN} --json",
    "verdict by a certificate": f"verdict --cert ../two-lanes-broken/certificate {BROKEN}",
    "lanes": f"lanes {BROKEN}",
    "client": f"client --lane 0 {BROKEN}",
    "client as JSON": f"client --lane 0 {BROKEN} --json",
    "faults": f"faults {BROKEN}",
    "evidence": f"evidence {BROKEN} -o OUT/page",
}
# Standard error where nothing failed: how many calls there were.
COUNTED = ("allocations: ", "calls: ")
FIRST = 300


def built(room, name):
    """A library that makes calls fail, to be loaded before others."""
    library = pathlib.Path(room) / f"{name}.so"
    subprocess.run(["gcc", "-shared", "-fPIC", "-O1", "-o", library, HERE / f"{name}.c", "-ldl"], check=True)
    return library


def run(program, words, room, **environment):
    """What a command does in a folder of its own: its status, what it prints, and what it wrote."""
    with tempfile.TemporaryDirectory(dir=room) as folder:
        # Paths from the root don't count as calls that may fail.
        out = os.path.relpath(folder, HERE / "prepare")
        done = subprocess.run(
            [program, *(word.replace("OUT", out) for word in words.split())],
            cwd=HERE / "prepare",
            capture_output=True,
            env={**os.environ, **{name: str(value) for name, value in environment.items()}},
        )
        # `ready` prints where its folder is
        done.stdout = done.stdout.replace(out.encode(), b"OUT")
        written = {file.name: file.read_bytes() if file.is_file() else b"" for file in pathlib.Path(folder).rglob("*")}
    return done, written


def said(done):
    """Standard error without the line that counts calls."""
    lines = done.stderr.decode().splitlines()
    return [line for line in lines if not line.startswith(COUNTED)]


def fail_each(program, name, words, room, library, status, every, most=200_000):
    """Fails calls in turn, until none is left: the faults, and how many there were."""
    whole, _ = run(program, words, room)
    faults, number = [], 0
    while number < most:
        number += 1 if number < FIRST else every
        done, written = run(program, words, room, LD_PRELOAD=library, FAIL_AT=number)
        if done.returncode == whole.returncode and done.stdout == whole.stdout and said(done) == said(whole):
            return faults, number - 1
        # notes about a configuration come before
        why = [line for line in said(done) if line not in said(whole)]
        if done.returncode != status or len(why) != 1 or not whole.stdout.startswith(done.stdout):
            faults.append(f"{name}, {library.stem} {number}: status {done.returncode}, {done.stderr[:200]!r}")
        if written:
            faults.append(f"{name}, {library.stem} {number}: left {sorted(written)}")
    return [*faults, f"{name}: more than {most} calls"], number


def main():
    words = argparse.ArgumentParser(description="Refuses turnprep and turnexplain each allocation and each call on a file.")
    words.add_argument("prepare", type=pathlib.Path)
    words.add_argument("explain", type=pathlib.Path)
    words.add_argument("--every", type=int, default=1)
    asked = words.parse_args()
    faults = []
    with tempfile.TemporaryDirectory(dir=HERE) as room:
        memory, files = built(room, "failing_malloc"), built(room, "failing_io")
        for program, commands in ((asked.prepare.resolve(), PREPARING), (asked.explain.resolve(), EXPLAINING)):
            for name, words in commands.items():
                found, allocations = fail_each(program, name, words, room, memory, 3, asked.every)
                more, calls = fail_each(program, name, words, room, files, 4, 1)
                whole, short = (run(program, words, room), run(program, words, room, LD_PRELOAD=files, SHORT=1))
                faults += found + more
                if (whole[0].stdout, whole[0].returncode, sorted(whole[1])) != (short[0].stdout, short[0].returncode, sorted(short[1])):
                    faults.append(f"{name}: answers otherwise by a byte at a time")
                print(f"{name}: {allocations} allocations and {calls} calls failed in turn", flush=True)
    for fault in faults[:40]:
        print(fault)
    print(f"failing calls: {len(faults)} failed")
    return 1 if faults else 0


if __name__ == "__main__":
    sys.exit(main())
