#!/usr/bin/env python3
"""Audits captures by wider skews than their clocks need, and tells those that no longer conform.

    python3 tests/wide_skews.py PROGRAM [--first 1] [--random 40] [--calls 20] [--skews 1000,10000,...] [--most 0] [FOLDER..]

A certificate that conforms by a policy's skew conforms by each wider one, since each window is within the wider window. So a capture
that conforms by its policy has an order by each skew up to 60 seconds, the greatest that a policy may state, and it ought to be found.
A walk by a tenth of each window has to find one random capture, and passes by a tenth have to find another one: nothing in their
certificates comes more than a tenth before all stamps.
FOLDERs have captures, a policy and users; else those of examples/ are taken. Random captures are those of tests/random_captures.py and
tests/call_captures.py. Skews are in microseconds. Policies with skews of their own for interfaces (version 2) keep those.
"""

import argparse
import concurrent.futures
import os
import pathlib
import struct
import subprocess
import sys
import tempfile

import call_captures
import random_captures

TOP = pathlib.Path(__file__).resolve().parent.parent
MICROSECOND = 1_000
# Random captures whose orders a walk by whole windows doesn't find with this skew: a walk by a part finds that of the first, and passes by a part
# alone find that of the second.
FOUND_BY_PART = [70_218, 200_193]
PART_SKEW = 1_000_000
SKEWS = [1_000, 10_000, 100_000, 1_000_000, 5_000_000, 60_000_000]


def audit(program, folder, policy):
    command = [program, "audit", "--policy", str(policy)]
    if (folder / "creds").exists():
        command += ["--creds", str(folder / "creds")]
    command += map(str, sorted(folder.glob("*.pcapng")))
    done = subprocess.run(command, capture_output=True, text=True)
    return done.returncode, " | ".join(done.stdout.splitlines()[1:5])


def with_skew(policy, skew):
    lines = [line for line in policy.splitlines() if not line.startswith("skew-us ")]
    return "".join(f"{line}\n" for line in [*lines, f"skew-us {skew}"])


def lost_of(program, folder, skews):
    """Whether a folder's captures conform by its policy, and by which skews they don't, with what is told."""
    policy = folder / "policy"
    if audit(program, folder, policy)[0] != 0:
        return False, []
    lost = []
    with tempfile.TemporaryDirectory() as scratch:
        for skew in skews:
            wider = pathlib.Path(scratch) / "policy"
            wider.write_text(with_skew(policy.read_text(), skew))
            status, text = audit(program, folder, wider)
            if status != 0:
                lost.append(f"skew-us {skew}: {text}")
    return True, lost


def lost_of_seed(program, build, seed, skews):
    with tempfile.TemporaryDirectory() as folder:
        build(seed).write(pathlib.Path(folder))
        return lost_of(program, pathlib.Path(folder), skews)


def first_stamp(capture):
    """The least stamp of a capture's packet blocks, in nanoseconds."""
    stamps, at = [], 0
    while at < len(capture):
        kind, length = struct.unpack_from("<II", capture, at)
        if kind == 6:
            high, low = struct.unpack_from("<II", capture, at + 12)
            stamps.append((high << 32 | low) * MICROSECOND)
        at += length
    return min(stamps)


def is_found_by_part(program, seed):
    """Whether that capture conforms, by a certificate that goes by a tenth of each window at the most."""
    with tempfile.TemporaryDirectory() as name:
        folder = pathlib.Path(name)
        captures = [folder / path for path in random_captures.Case(seed).write(folder)]
        policy = folder / "policy"
        policy.write_text(with_skew(policy.read_text(), PART_SKEW))
        if audit(program, folder, policy)[0] != 0:
            return False
        words = ["--policy", policy, "--creds", folder / "creds", *captures]
        done = subprocess.run([program, "find", *map(str, words)], capture_output=True, text=True)
        stamp = min(first_stamp(capture.read_bytes()) for capture in captures)
    events = [line.split() for line in done.stdout.splitlines() if line.startswith(("in ", "act ", "out ", "drop "))]
    return bool(events) and min(int(event[-2]) for event in events) >= stamp - PART_SKEW * MICROSECOND // 10


def main():
    parser = argparse.ArgumentParser(description=__doc__, formatter_class=argparse.RawDescriptionHelpFormatter)
    parser.add_argument("program")
    parser.add_argument("folders", nargs="*", type=pathlib.Path)
    parser.add_argument("--first", type=int, default=1)
    parser.add_argument("--random", type=int, default=40)
    parser.add_argument("--calls", type=int, default=20)
    parser.add_argument("--skews", type=lambda text: [int(skew) for skew in text.split(",")], default=SKEWS)
    parser.add_argument("--most", type=int, default=0)
    words = parser.parse_args()
    program = os.path.realpath(words.program)
    folders = words.folders or [folder for folder in sorted((TOP / "examples").iterdir()) if (folder / "policy").is_file()]
    asked = {folder.name: (lost_of, program, folder, words.skews) for folder in folders}
    for kind, build, count in [("random", random_captures.Case, words.random), ("call", call_captures.CallCase, words.calls)]:
        for seed in range(words.first, words.first + count):
            asked[f"{kind} {seed}"] = (lost_of_seed, program, build, seed, words.skews)
    conforming = missed = 0
    with concurrent.futures.ThreadPoolExecutor(os.cpu_count()) as pool:
        waiting = {name: pool.submit(*call) for name, call in asked.items()}
        for name, answer in waiting.items():
            conforms, lost = answer.result()
            conforming += conforms
            missed += len(lost)
            for line in lost:
                print(f"{name}: {line}", flush=True)
    by_no_part = [seed for seed in FOUND_BY_PART if not is_found_by_part(program, seed)]
    for seed in by_no_part:
        print(f"random {seed} by skew-us {PART_SKEW}: not found by a tenth of each window")
    print(f"wide skews: {conforming} captures conform, by {len(words.skews)} wider skews each; {missed} of these not shown")
    return 1 if missed > words.most or by_no_part else 0


if __name__ == "__main__":
    sys.exit(main())
