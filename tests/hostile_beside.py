#!/usr/bin/env python3
"""Input made to break the readers of turnprep and turnexplain, each at the edge of what is refused, and disks that are full.

    python3 tests/hostile_beside.py TURNPREP TURNEXPLAIN

The captures, policies and certificates of tests/hostile.py: `turnexplain verdict` has the status, the rule or the refusal that they have
there, and the commands of turnprep refuse what is refused there, and nothing else. Then every front of the capture is read by each of them,
and files and standard output take fewer and fewer bytes: the status is 4, standard output has the beginning of the answer, and no file is
left.
"""

import pathlib
import re
import resource
import shutil
import subprocess
import sys
import tempfile

from hostile import BROKEN, CAPTURE, CERTIFICATE, EDGES, POLICY, Tries

WHOLE = {28: 0, 48: 0, 144: 1, 252: 2}
"""The fronts of the capture that are captures, with how many datagrams."""


class Preparing(Tries):
    """Runs turnprep, in a folder with a folder `out`, which is new for each call."""

    def prepare(self, words, **more):
        shutil.rmtree(self.place / "out", ignore_errors=True)
        (self.place / "out").mkdir()
        return self.run(words, **more)

    def left(self):
        return sorted(file.name for file in (self.place / "out").iterdir())


PREPARES = {
    "look": (["look", "--policy", "policy", "capture"], []),
    "cut": (["cut", "--policy", "policy", "-o", "out", "capture"], ["capture", "set-aside"]),
    "join": (["join", "-o", "out/joined", "capture"], ["joined"]),
    "reassemble": (["reassemble", "-o", "out", "capture"], ["capture"]),
    "translate": (["translate", "--policy", "policy", "--external-ip", "192.0.2.1/10.0.0.1", "-o", "out", "capture"], ["capture", "translated"]),
}
READS_NO_POLICY = ("join", "reassemble")

def head_of(report):
    """How an answer of turnexplain begins, for a report of turnaudit."""
    lines = report.splitlines()
    conforming = re.fullmatch(r"conforming (\d+) datagrams (\d+) lanes", lines[1])
    if conforming:
        return f"conforming  {conforming[1]} datagrams, {conforming[2]} lanes"
    return f"not shown  {lines[2].removeprefix('rule ')}"


def is_refused(ran, line):
    """Whether a call ended by this refusal, which words may follow."""
    said = ran.stderr.decode()
    return (ran.returncode, ran.stdout) == (2, b"") and said.count("\n") == 1 and (said == f"{line}\n" or said.startswith(f"{line}: "))


def edges(prepare, explain):
    for name, capture, certificate, policy, (status, said) in EDGES:
        explain.write(capture, certificate, policy)
        ran = explain.run(["verdict", "--policy", "policy", "--cert", "cert", "capture"])
        told = (ran.stdout if status < 2 else ran.stderr).decode()
        code = None if status < 2 else said.split(" ")[2]
        expected = head_of(said) if code is None else f", {code}"
        right = ran.returncode == status and (told.startswith(expected) if code is None else expected in told and not ran.stdout and told.count("\n") == 1)
        explain.tell(f"verdict, {name}", right, ran)
        prepare.write(capture, certificate, policy)
        for command, (words, makes) in PREPARES.items():
            ran = prepare.prepare(words)
            is_read = code and (code[0] == "C" or code[0] == "P" and command not in READS_NO_POLICY)
            if is_read:
                right = is_refused(ran, said.replace("turnaudit", "turnprep").rstrip("\n")) and not prepare.left()
            else:
                right = ran.returncode in (0, 6) and prepare.left() == makes
            prepare.tell(f"{command}, {name}", right, ran)


def fronts(prepare, explain):
    """A front that ends with a block is whole, one that ends in a block is refused, and so is none at all."""
    for length in range(len(CAPTURE) + 1):
        explain.write(CAPTURE[:length], CERTIFICATE, POLICY)
        code = "C5" if length == 0 else "C1"
        ran = explain.run(["verdict", "--policy", "policy", "capture"])
        if length in WHOLE:
            right = ran.returncode == 0 and ran.stdout.startswith(f"conforming  {WHOLE[length]} datagrams, ".encode())
        else:
            right = ran.returncode == 2 and not ran.stdout and f", {code}".encode() in ran.stderr
        explain.tell(f"verdict of the first {length} bytes", right, ran)
        prepare.write(CAPTURE[:length], CERTIFICATE, POLICY)
        for command, (words, makes) in PREPARES.items():
            ran = prepare.prepare(words)
            if length in WHOLE:
                right = ran.returncode in (0, 6) and prepare.left() == makes
            else:
                right = is_refused(ran, f"turnprep: refused {code} in capture 0") and not prepare.left()
            prepare.tell(f"{command} of the first {length} bytes", right, ran)


def little_room(prepare, explain):
    """Standard output, and each file that is made, takes so many bytes and no more."""
    for tries, name, words in [
        *((prepare, "turnprep", words) for words, _ in PREPARES.values()),
        (explain, "turnexplain", ["verdict", "--policy", "policy", "capture"]),
        (explain, "turnexplain", ["lanes", "--json", "--policy", "policy", "capture"]),
        (explain, "turnexplain", ["evidence", "-o", "out/page", "--policy", "policy", "capture"]),
    ]:
        tries.write(BROKEN, CERTIFICATE, POLICY)
        whole = tries.prepare(words)
        made = [(tries.place / "out" / file).stat().st_size for file in tries.left()]
        # So much room does: the largest of what is written.
        most = max([len(whole.stdout), *made])
        for room in sorted({*range(0, min(most, 400), 7), *range(400, most, max(1, most // 20)), most - 1, most}):
            with open(tries.place / "answer", "wb") as out:
                ran = tries.prepare(words, capture_output=False, stdout=out, stderr=subprocess.PIPE, restore_signals=False,
                                    preexec_fn=lambda room=room: resource.setrlimit(resource.RLIMIT_FSIZE, (room, room)))
            written = (tries.place / "answer").read_bytes()
            if room >= most:
                right = ran.returncode == whole.returncode and written == whole.stdout and len(tries.left()) == len(made)
            else:
                is_told = ran.stderr.startswith(f"{name}: ".encode()) and ran.stderr.count(b"\n") == 1
                right = ran.returncode == 4 and is_told and whole.stdout.startswith(written) and not tries.left()
            tries.tell(f"{name} {words[0]}, room for {room} of {most} bytes", right, ran)


def main():
    if len(sys.argv) != 3:
        sys.exit(__doc__.strip())
    with tempfile.TemporaryDirectory() as place:
        folders = [pathlib.Path(place) / name for name in ("prepare", "explain")]
        for folder in folders:
            folder.mkdir()
        prepare, explain = (Preparing(pathlib.Path(word).resolve(), folder) for word, folder in zip(sys.argv[1:], folders))
        for part in (edges, fronts, little_room):
            part(prepare, explain)
    wrong = prepare.wrong + explain.wrong
    print(f"hostile beside: {prepare.right + explain.right} passed, {wrong} failed")
    sys.exit(1 if wrong else 0)


if __name__ == "__main__":
    main()
