#!/usr/bin/env python3
"""Reads what turnprep and turnexplain draw on a terminal while they read captures.

    tests/progress.py TURNPREP TURNEXPLAIN

Standard error is a pseudo-terminal, and each read takes 150 milliseconds longer. The line has the name, a share that grows and a rate, it
is redrawn at most ten times a second and is gone at the end and before a refusal. Quick work draws none, nor does standard error that is
no terminal, and standard output stays the same. It needs gcc.
"""

import os
import pathlib
import pty
import re
import shutil
import subprocess
import sys
import tempfile
import time

HERE = pathlib.Path(__file__).resolve().parent
EXAMPLE = HERE.parent / "examples" / "coturn-24-clients"
CAPTURE = EXAMPLE / "cap.pcapng"
LINE = re.compile(rb"\rturn(?:prep|explain): ([^\r\x1b]*) (\d+)%, (\d+) MB/s\x1b\[K")
GONE = b"\r\x1b[K"


def on_terminal(words, **environment):
    """What a command prints, what it writes to a terminal that is its standard error, its status, and its seconds."""
    ours, theirs = pty.openpty()
    began = time.monotonic()
    with tempfile.TemporaryFile() as out:
        done = subprocess.Popen(words, stdout=out, stderr=theirs, env={**os.environ, **environment})
        os.close(theirs)
        drawn = b""
        while True:
            try:
                piece = os.read(ours, 4096)
            except OSError:  # the program has ended
                break
            if not piece:
                break
            drawn += piece
        status = done.wait()
        out.seek(0)
        said = out.read()
    os.close(ours)
    return said, drawn, status, time.monotonic() - began


def grows(shares):
    """Whether shares grow, but for where another reading begins."""
    return all(0 <= share <= 100 for share in shares) and sum(later < earlier for earlier, later in zip(shares, shares[1:])) <= 1


def faults_of(name, command):
    """What is wrong with the lines of a command, which reads the capture that follows it twice."""
    faults = []

    def expect(holds, what):
        if not holds:
            faults.append(f"{name}: {what}")

    with tempfile.TemporaryDirectory() as room:
        slow = pathlib.Path(room) / "slow_reads.so"
        subprocess.run(["gcc", "-shared", "-fPIC", "-O1", "-o", slow, HERE / "slow_reads.c", "-ldl"], check=True)
        preloaded = {"LD_PRELOAD": str(slow)}
        look = [*command, CAPTURE]
        plain = subprocess.run(look, capture_output=True)
        expect(plain.stderr == b"" and plain.returncode == 0, f"without a terminal: {plain.stderr}")

        said, drawn, status, seconds = on_terminal(look, **preloaded)
        lines = LINE.findall(drawn)
        expect((said, status) == (plain.stdout, 0), "another answer on a terminal")
        expect(len(lines) > 5 and {name for name, _, _ in lines} == {str(CAPTURE)[-40:].encode()}, f"drawn: {drawn}")
        expect(grows([int(share) for _, share, _ in lines]), f"shares: {lines}")
        expect(len(lines) <= 10 * seconds, f"{len(lines)} lines in {seconds} seconds")
        expect(LINE.sub(b"", drawn).replace(GONE, b"") == b"" and drawn.endswith(GONE), f"left on the terminal: {drawn[-200:]}")

        slow_pipe = subprocess.run(look, capture_output=True, env={**os.environ, **preloaded})
        expect(slow_pipe.stderr == b"" and slow_pipe.stdout == plain.stdout, f"slow, without a terminal: {slow_pipe.stderr}")

        # a name with a control character, of a file that is refused at its end
        wrong = pathlib.Path(room) / ("a" * 80 + "\x1b[2J.pcapng")
        shutil.copyfile(CAPTURE, wrong)
        with open(wrong, "ab") as file:
            file.write(b"\0" * 12)
        _, drawn, status, _ = on_terminal([*command, wrong], **preloaded)
        lines = LINE.findall(drawn)
        rest = LINE.sub(b"", drawn)
        expect(status == 2 and len(lines) > 2 and all(len(name) <= 40 for name, _, _ in lines), f"refused: {drawn}")
        expect(rest.startswith(GONE + f"{name}: ".encode()) and rest.endswith(b"\r\n") and b"\x1b[2J" not in drawn, f"refused: {rest}")

        quick = EXAMPLE.parent / "coturn-channels-two-files" / "client.pcapng"
        said, drawn, status, _ = on_terminal([*command, quick])
        expect(drawn == b"" and status in (0, 1), f"quick: {drawn}")
    return faults


def main():
    prepare, explain = (pathlib.Path(word).resolve() for word in sys.argv[1:])
    faults = faults_of("turnprep", [prepare, "look"])
    faults += faults_of("turnexplain", [explain, "verdict", "--policy", EXAMPLE / "policy", "--creds", EXAMPLE / "creds"])
    for fault in faults:
        print(fault)
    print(f"a line on a terminal, in 10 runs, {len(faults)} faults")
    return 1 if faults else 0


if __name__ == "__main__":
    sys.exit(main())
