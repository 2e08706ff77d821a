#!/usr/bin/env python3
"""Time that `live` takes for a capture, beside `audit`, and of its first and last turns.

    python3 bench/make_capture.py /tmp/cap --clients 24 --datagrams 1000000
    python3 bench/live_turns.py PROGRAM /tmp/cap [--runs 3] [--turns 1000]
    python3 bench/live_turns.py PROGRAM /tmp/cap [--runs 3] [--turns 1000] --of 10000

With --of N the captures come through pipes, in N turns: a piece of each is written once the piece before is read. Else the capture is whole from the start, so that each turn reads 65,536 bytes. How far it is read is seen in /proc, at its file's position: the time of
the first turns ends where so many pieces were read, and that of the last ones is from there to the piece behind which nothing is left.

It reads the folder that bench/make_capture.py writes. It imports no file of this repository, and none imports it.
"""

import argparse
import array
import fcntl
import os
import pathlib
import statistics
import subprocess
import tempfile
import termios
import time

PIECE = 65536


def words_of(folder):
    words = ["--policy", folder / "policy"]
    if (folder / "creds").exists():
        words += ["--creds", folder / "creds"]
    return [str(word) for word in [*words, *sorted(folder.glob("*.pcapng"))]]


def position_in(run, capture):
    """How many bytes of the capture were read, None where it isn't open."""
    files = pathlib.Path(f"/proc/{run.pid}/fd")
    try:
        for file in files.iterdir():
            if file.resolve() == capture:
                text = pathlib.Path(f"/proc/{run.pid}/fdinfo/{file.name}").read_text()
                return int(text.split()[1])
    except (FileNotFoundError, ProcessLookupError, PermissionError):
        pass
    return None


def time_live(program, words, capture, turns):
    """Seconds of all, of the first turns, of the last turns, and from the last piece to the end."""
    size = capture.stat().st_size
    marks = {"first": turns * PIECE, "rest": size - turns * PIECE, "read": size}
    passed = {}
    began = time.monotonic()
    run = subprocess.Popen([program, "live", *words], stdout=subprocess.PIPE, text=True)
    while run.poll() is None:
        position = position_in(run, capture)
        now = time.monotonic() - began
        for name, mark in marks.items():
            if position is not None and position >= mark:
                passed.setdefault(name, now)
        time.sleep(0.002)
    whole = time.monotonic() - began
    return whole, passed["first"], passed["read"] - passed["rest"], whole - passed["read"], run.stdout.read()


def is_read(pipe):
    """Whether all that was written to a pipe was read."""
    left = array.array("i", [0])
    fcntl.ioctl(pipe, termios.FIONREAD, left)
    return left[0] == 0


def time_through_pipes(program, words, captures, turns, of):
    """The same, where the captures come through pipes in so many turns."""
    with tempfile.TemporaryDirectory() as scratch:
        names = [pathlib.Path(scratch) / capture.name for capture in captures]
        pipes = []
        for name in names:
            os.mkfifo(name)
            pipes.append(os.open(name, os.O_RDWR))
        texts = [capture.read_bytes() for capture in captures]
        kept = [word for word in words if not word.endswith(".pcapng")]
        began = time.monotonic()
        run = subprocess.Popen([program, "live", *kept, *map(str, names)], stdout=subprocess.PIPE, text=True)
        passed = []
        for turn in range(of):
            for pipe, text in zip(pipes, texts):
                os.write(pipe, text[turn * len(text) // of : (turn + 1) * len(text) // of])
            while not all(is_read(pipe) for pipe in pipes):
                time.sleep(0)
            passed.append(time.monotonic() - began)
        for pipe in pipes:
            os.close(pipe)
        out = run.communicate()[0]
        whole = time.monotonic() - began
    return whole, passed[turns], passed[-1] - passed[-1 - turns], whole - passed[-1], out


def time_audit(program, words):
    began = time.monotonic()
    out = subprocess.run([program, "audit", *words], stdout=subprocess.PIPE, text=True).stdout
    return time.monotonic() - began, out


def main():
    parser = argparse.ArgumentParser(description=__doc__, formatter_class=argparse.RawDescriptionHelpFormatter)
    parser.add_argument("program")
    parser.add_argument("folder", type=pathlib.Path)
    parser.add_argument("--runs", type=int, default=3)
    parser.add_argument("--turns", type=int, default=1000)
    parser.add_argument("--of", type=int)
    options = parser.parse_args()
    words = words_of(options.folder)
    capture = max(options.folder.glob("*.pcapng"), key=lambda file: file.stat().st_size).resolve()
    print(f"{capture.stat().st_size} bytes, {options.of or -(-capture.stat().st_size // PIECE)} turns")
    if options.of:
        captures = sorted(options.folder.glob("*.pcapng"))
        live = [time_through_pipes(options.program, words, captures, options.turns, options.of) for _ in range(options.runs)]
    else:
        live = [time_live(options.program, words, capture, options.turns) for _ in range(options.runs)]
    audit = [time_audit(options.program, words) for _ in range(options.runs)]
    for name, column in [("live", 0), (f"first {options.turns} turns", 1), (f"last {options.turns} turns", 2), ("behind the last byte", 3)]:
        print(f"{name}: {statistics.median(run[column] for run in live):.2f} s")
    print(f"audit: {statistics.median(run[0] for run in audit):.2f} s")
    print("the reports are the same" if {run[4] for run in live} == {run[1] for run in audit} else "the reports differ")


if __name__ == "__main__":
    main()
