#!/usr/bin/env python3
"""Gives turnprep and turnexplain damaged captures, policies, users and configurations, and looks at how they answer.

    python3 tests/fuzz_beside.py TURNPREP TURNEXPLAIN [--seconds 60] [--seed N] [--jobs N] [--keep FOLDER] [--brief] FOLDER..

A folder is a stored case: policy, captures, perhaps creds. Captures are cut to their first blocks. Each try damages one or more files
(tests/fuzz.py), runs three of the commands of each program on them, and stops where

- a status isn't one of the command's, a signal ended the program, or a run took over 10 seconds;
- what is written doesn't belong to the status: a refusal is one line on standard error, and nothing else;
- something that is printed has a control byte, an answer in JSON is none, or a page has a script;
- a file is left after a status that isn't 0, 1 or 6, or one under its temporary name.

With --brief each try runs one command, so that more inputs are tried in the same time.

The input that showed it is kept in FOLDER, with the arguments in `words`. The seed decides all tries; it is printed.
"""

import argparse
import collections
import concurrent.futures
import json
import os
import pathlib
import random
import subprocess
import sys
import tempfile
import time

sys.path.insert(0, str(pathlib.Path(__file__).parent))

from beside_plain import captures_in
from fuzz import LONGEST, Stored, damaged, front_of
from plain.reading import read_policy

CONF = (pathlib.Path(__file__).parent / "prepare" / "inputs" / "secret.conf").read_bytes()
SECRET = b"north\n"
ENDS = {"turnprep": {0, 2, 3, 4}, "turnexplain": {0, 1, 2, 3, 4}}
"""The statuses of every command; `cut` has 6, too, and `client` 5 where there is no such lane."""


class Case:
    """A stored case, from which tries are made."""

    def __init__(self, folder):
        captures = captures_in(folder)
        self.files = {f"capture{number}": front_of(path.read_bytes()) for number, path in enumerate(captures)}
        self.captures = list(self.files)
        self.policy = read_policy(folder / "policy")
        self.files["policy"] = (folder / "policy").read_bytes()
        self.files["conf"] = CONF
        self.files["secret"] = SECRET
        if (folder / "creds").exists():
            self.files["creds"] = (folder / "creds").read_bytes()

    def commands(self, chance, brief):
        """Commands of both programs on the files: three of each, or one where it is brief."""
        lines = self.files["policy"].decode().splitlines()
        address = lines[1].split(" ")[1].partition(":")[0]
        creds = ["--creds", "creds"] if "creds" in self.files else []
        judged = ["--policy", "policy", *creds, *self.captures]
        prepares = [
            ["look", *self.captures],
            ["look", "--policy", "policy", *self.captures],
            ["cut", "--policy", "policy", "-o", "out", *self.captures],
            ["cut", "--policy", "policy", "--from-start", "--no-tcp", "-o", "out", *self.captures],
            ["cut", "--policy", "policy", "--released-ms", "1000", "-o", "out", *self.captures],
            ["join", "-o", "out/joined", *self.captures],
            ["reassemble", "-o", "out", *self.captures],
            ["translate", "--policy", "policy", "--external-ip", f"{address}/10.0.0.1", "-o", "out", *self.captures],
            ["policy", "--turnserver-conf", "conf"],
            ["users", "--turnserver-conf", "conf", *self.captures],
            ["users", "--secret-file", "secret", *self.captures],
        ]
        explains = [
            ["verdict", *judged],
            ["verdict", "--json", *judged],
            ["lanes", *judged],
            ["lanes", "--broken", "--json", *judged],
            ["client", "--lane", "0", *judged],
            ["client", "--lane", "1", "--json", *judged],
            ["faults", *judged],
            ["evidence", "-o", "out/page", *judged],
        ]
        if brief:
            return [chance.choice((("turnprep", chance.choice(prepares)), ("turnexplain", chance.choice(explains))))]
        return [("turnprep", words) for words in chance.sample(prepares, 3)] + [("turnexplain", words) for words in chance.sample(explains, 3)]


def has_control(data):
    """Whether a terminal would act on one of the bytes."""
    return any(byte < 32 and byte not in b"\n\t" or byte == 127 for byte in data)


def fault_of(name, words, done, seconds, left):
    """What is wrong with what a command did, or None."""
    also = {"cut": {6}, "client": {5}}.get(words[0], set())
    if seconds > LONGEST:
        return f"took over {LONGEST} seconds"
    if done.returncode not in ENDS[name] | also:
        return f"status {done.returncode}, {done.stderr[:300]!r}"
    if has_control(done.stdout) or has_control(done.stderr):
        return "a control byte"
    is_done = done.returncode in (0, 1, 6)
    if not is_done and (done.stdout or done.stderr.count(b"\n") != 1 or not done.stderr.startswith(f"{name}: ".encode())):
        return f"status {done.returncode} with {done.stdout[:200]!r} and {done.stderr[:300]!r}"
    if not is_done and left or any(file.endswith(".part") for file in left):
        return f"status {done.returncode} leaves {left}"
    if is_done and "-o" in words and not left:
        return "writes nothing"
    if is_done and "--json" in words:
        try:
            answer = json.loads(done.stdout)
        except ValueError:
            return f"no JSON: {done.stdout[:200]!r}"
        if (answer["verdict"] == "conforming") != (done.returncode == 0):
            return f"status {done.returncode} and {answer['verdict']}"
    return None


def tried(programs, cases, seed, number, keep, brief):
    """What is wrong with the answers to a try, or None; and how often each status came."""
    statuses = collections.Counter()
    chance = random.Random(f"{seed} {number}")
    case = cases[number % len(cases)]
    files = dict(case.files)
    for _ in range(chance.choice((1, 1, 1, 2, 5))):
        name = chance.choice([*case.captures, *case.captures, *sorted(files)])
        files[name] = damaged(chance, case.policy, name, files[name], files[name] is case.files[name])
    for name, words in case.commands(chance, brief):
        with tempfile.TemporaryDirectory() as place:
            place = pathlib.Path(place)
            (place / "out").mkdir()
            Stored.write(place, files)
            began = time.monotonic()
            try:
                done = subprocess.run([programs[name], *words], cwd=place, capture_output=True, timeout=4 * LONGEST)
                left = sorted(file.name for file in (place / "out").iterdir())
                what = fault_of(name, words, done, time.monotonic() - began, left)
                if not what and left == ["page"] and b"<script" in (place / "out" / "page").read_bytes():
                    what = "a page with a script"
                statuses[f"{words[0]} {done.returncode}"] += 1
            except subprocess.TimeoutExpired:
                what = f"took over {4 * LONGEST} seconds"
        if what:
            keep = keep / f"{seed}-{number}"
            keep.mkdir(parents=True, exist_ok=True)
            Stored.write(keep, files)
            (keep / "words").write_text(" ".join((name, *words)) + "\n")
            return f"try {number}: {name} {' '.join(words)}: {what}\n    kept in {keep}", statuses
    return None, statuses


def main():
    words = argparse.ArgumentParser(description="Gives turnprep and turnexplain damaged input.")
    words.add_argument("prepare", type=pathlib.Path)
    words.add_argument("explain", type=pathlib.Path)
    words.add_argument("folders", type=pathlib.Path, nargs="+")
    words.add_argument("--seconds", type=float, default=60)
    words.add_argument("--seed", type=int, default=int(time.time()))
    words.add_argument("--jobs", type=int, default=os.cpu_count() or 1)
    words.add_argument("--keep", type=pathlib.Path, default=pathlib.Path("fuzz-kept"))
    words.add_argument("--brief", action="store_true")
    asked = words.parse_args()
    programs = {"turnprep": asked.prepare.resolve(), "turnexplain": asked.explain.resolve()}
    cases = [Case(folder) for folder in asked.folders if (folder / "policy").exists() and captures_in(folder)]
    print(f"seed {asked.seed}, {len(cases)} stored cases")
    end, number, wrong, statuses = time.monotonic() + asked.seconds, 0, [], collections.Counter()
    with concurrent.futures.ThreadPoolExecutor(asked.jobs) as pool:
        while time.monotonic() < end and not wrong:
            batch = range(number, number + 8 * asked.jobs)
            for what, counted in pool.map(lambda n: tried(programs, cases, asked.seed, n, asked.keep, asked.brief), batch):
                statuses.update(counted)
                if what:
                    wrong.append(what)
            number = batch.stop
    for what in wrong[:10]:
        print(what)
    print("statuses: " + ", ".join(f"{words} {count} times" for words, count in sorted(statuses.items())))
    print(f"{number} tries, {len(wrong)} wrong")
    sys.exit(1 if wrong else 0)


if __name__ == "__main__":
    main()
