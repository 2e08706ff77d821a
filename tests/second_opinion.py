#!/usr/bin/env python3
"""Asks tools/second_opinion.py and `python3 -m tests.plain` for their opinion of stored captures, and compares with what `PROGRAM check` says.

    python3 tests/second_opinion.py PROGRAM

Both commands answer without a kit: no `rt` is on their path. On one capture that conforms and two that don't, report and status are those of
PROGRAM, and, but for the moment, which a certificate chooses, those that are stored.
"""

import os
import pathlib
import re
import subprocess
import sys
import tempfile

TOP = pathlib.Path(__file__).resolve().parent.parent
EXAMPLES = TOP / "examples"
FOLDERS = "coturn-channels-two-files", "coturn-permission-outlived", "processone-other-user"
COMMANDS = {"second_opinion": [sys.executable, TOP / "tools" / "second_opinion.py"], "tests.plain": [sys.executable, "-m", "tests.plain"]}
ALONE = {**os.environ, "PATH": "/nonexistent", "PYTHONDONTWRITEBYTECODE": "1"}


class Tries:
    """What was asked so far, and how often it didn't hold."""

    def __init__(self):
        self.count = self.failed = 0

    def same(self, name, wanted, found):
        self.count += 1
        if wanted != found:
            self.failed += 1
            print(f"failed: {name}\n    wanted {wanted}\n    found {found}")


def words_in(folder):
    captures = [folder / "client.pcapng", folder / "peer.pcapng"]
    captures = captures if captures[0].exists() else [folder / "cap.pcapng"]
    return ["--policy", folder / "policy", "--creds", folder / "creds", "--cert", folder / "certificate", *captures]


def answer(command, words):
    ran = subprocess.run([str(word) for word in [*command, *words]], capture_output=True, text=True, cwd=TOP, env=ALONE)
    return ran.returncode, ran.stdout, len(ran.stderr.splitlines())


def without_moment(text):
    return re.sub(r" moment .*", "", text)


def try_folder(tries, program, folder):
    wanted = answer([program, "check"], words_in(folder))
    stored = int((folder / "status").read_text()), without_moment((folder / "expected").read_text())
    for name, command in COMMANDS.items():
        found = answer(command, words_in(folder))
        tries.same(f"{folder.name} by {name}", wanted, found)
        tries.same(f"{folder.name} by {name}, as stored", stored, (found[0], without_moment(found[1])))


def try_faults(tries):
    """Words and files that are none have turnaudit's statuses, and nothing on standard output."""
    call = words_in(EXAMPLES / FOLDERS[0])
    with tempfile.TemporaryDirectory(prefix="second-opinion-") as room:
        damaged = pathlib.Path(room, "damaged")
        damaged.write_text("turnaudit-policy 1\nlisten here\n")
        for name, command in COMMANDS.items():
            tries.same(f"{name}, no file", (4, "", 1), answer(command, ["--policy", "/nonexistent", *call[2:]]))
            tries.same(f"{name}, a damaged policy", (2, "", 1), answer(command, ["--policy", damaged, *call[2:]]))
            tries.same(f"{name}, no certificate", (5, ""), answer(command, [*call[:4], *call[6:]])[:2])
            tries.same(f"{name}, no words", (5, ""), answer(command, [])[:2])


def main():
    if len(sys.argv) != 2:
        sys.exit(__doc__.strip())
    program, tries = pathlib.Path(sys.argv[1]).resolve(), Tries()
    for name in FOLDERS:
        try_folder(tries, program, EXAMPLES / name)
    try_faults(tries)
    print(f"second_opinion: {tries.count} asked, {tries.failed} failed")
    sys.exit(1 if tries.failed else 0)


if __name__ == "__main__":
    main()
