#!/usr/bin/env python3
"""`live` beside `audit`, over captures that come packet by packet, and over whole ones.

    python3 tests/live_beside_audit.py PROGRAM [--first 1] [--random 60] [--calls 40] [--most 2] [FOLDER..]

Each capture is read by `live` twice: in pieces of 65,536 bytes, and in turns of one packet of each interface. The second is done by
pipes in packet mode, of which each read gives what one write put in. What `audit` shows to conform has to conform by both. `live` goes
by one walk and `audit` looks for more than that, so of random captures `--most` may be missed by the whole; but none that conforms in
pieces of 65,536 bytes, which is one turn for each of these, may be lost packet by packet.

FOLDERs have captures, a policy and users; else those of examples/ are taken that conform. Random captures are those of
tests/random_captures.py and tests/call_captures.py.
"""

import argparse
import array
import concurrent.futures
import contextlib
import fcntl
import os
import pathlib
import struct
import subprocess
import sys
import tempfile
import termios
import time

import call_captures
import random_captures

TOP = pathlib.Path(__file__).resolve().parent.parent
SET_PIPE_SIZE = 1031
PIPE_SIZE = 1 << 20
PACKET_BLOCKS = (2, 3, 6)
CASES = {"random": random_captures.Case, "call": call_captures.CallCase}


def packets_of(capture):
    """The capture cut behind each packet; the first part has what comes before the packets, too."""
    parts, begin, at = [], 0, 0
    order = "<"
    while at < len(capture):
        kind = struct.unpack_from("<I", capture, at)[0]
        if kind == 0x0A0D0D0A:
            order = "<" if capture[at + 8 : at + 12] == b"\x4d\x3c\x2b\x1a" else ">"
        kind, length = struct.unpack_from(f"{order}II", capture, at)
        at += length
        if kind in PACKET_BLOCKS:
            parts.append(capture[begin:at])
            begin = at
    return parts + [capture[begin:]] if begin < len(capture) else parts


def is_read(pipe):
    """Whether all that was written to a pipe was read."""
    left = array.array("i", [0])
    fcntl.ioctl(pipe, termios.FIONREAD, left)
    return left[0] == 0


def packet_pipe(path):
    """A pipe of that name. What one write puts in, one read takes out; where the system has no such pipes, a turn may have several packets."""
    os.mkfifo(path)
    pipe = os.open(path, os.O_RDWR | os.O_NONBLOCK)
    with contextlib.suppress(OSError):
        fcntl.fcntl(pipe, fcntl.F_SETFL, fcntl.fcntl(pipe, fcntl.F_GETFL) | os.O_DIRECT)
        # A larger pipe only has fewer waits.
        fcntl.fcntl(pipe, SET_PIPE_SIZE, PIPE_SIZE)
    return pipe


def write_what_fits(pipe, packets):
    while packets:
        try:
            os.write(pipe, packets[-1])
        except BlockingIOError:
            return
        packets.pop()


def live_by_packets(program, words, captures):
    """What `live` answers where each turn has one packet of each capture."""
    with tempfile.TemporaryDirectory() as folder:
        names = [pathlib.Path(folder) / str(number) for number in range(len(captures))]
        left = {packet_pipe(name): packets_of(capture)[::-1] for name, capture in zip(names, captures)}
        command = [program, "live", *words, *map(str, names)]
        run = subprocess.Popen(command, stdout=subprocess.PIPE, stderr=subprocess.PIPE, text=True)
        while left:
            for pipe, packets in list(left.items()):
                write_what_fits(pipe, packets)
                if not packets and is_read(pipe) or run.poll() is not None:
                    os.close(pipe)
                    del left[pipe]
            time.sleep(0.0005)
        out, err = run.communicate(timeout=600)
        return run.returncode, out + err


def answer(program, command, words, files):
    done = subprocess.run([program, command, *words, *map(str, files)], capture_output=True, text=True)
    return done.returncode, done.stdout + done.stderr


def compare(program, folder):
    """What `audit` answers of a folder's captures, and `live` of whole captures and packet by packet."""
    files = sorted(folder.glob("*.pcapng"))
    words = ["--policy", str(folder / "policy")]
    if (folder / "creds").exists():
        words += ["--creds", str(folder / "creds")]
    captures = [file.read_bytes() for file in files]
    return (
        answer(program, "audit", words, files),
        answer(program, "live", words, files),
        live_by_packets(program, words, captures),
    )


def compare_seed(program, kind, seed):
    with tempfile.TemporaryDirectory() as folder:
        CASES[kind](seed).write(pathlib.Path(folder))
        return compare(program, pathlib.Path(folder))


def told(answer):
    status, text = answer
    return f"{status} {' | '.join(text.splitlines()[1:5])}"


class Tally:
    def __init__(self):
        self.conforming = self.missed = self.lost = 0

    def add(self, name, audited, whole, by_packets):
        """Counts what one capture was answered, and tells what differs."""
        if audited[0] != 0:
            return
        self.conforming += 1
        self.missed += whole[0] != 0
        self.lost += whole[0] == 0 and by_packets[0] != 0
        if whole[0] != 0 or by_packets[0] != 0:
            print(f"{name}: live of the whole {told(whole)}; packet by packet {told(by_packets)}", flush=True)


def main():
    parser = argparse.ArgumentParser(description=__doc__, formatter_class=argparse.RawDescriptionHelpFormatter)
    parser.add_argument("program")
    parser.add_argument("folders", nargs="*", type=pathlib.Path)
    parser.add_argument("--first", type=int, default=1)
    parser.add_argument("--random", type=int, default=60)
    parser.add_argument("--calls", type=int, default=40)
    parser.add_argument("--most", type=int, default=2)
    words = parser.parse_args()
    program = os.path.realpath(words.program)
    examples = [folder for folder in sorted((TOP / "examples").iterdir()) if (folder / "policy").is_file()]
    stored, random = Tally(), Tally()
    with concurrent.futures.ThreadPoolExecutor(os.cpu_count()) as pool:
        folders = words.folders or examples
        for folder, answers in zip(folders, pool.map(lambda folder: compare(program, folder), folders)):
            stored.add(folder.name, *answers)
        for kind, count in [("random", words.random), ("call", words.calls)]:
            seeds = range(words.first, words.first + count)
            for seed, answers in zip(seeds, pool.map(lambda seed, kind=kind: compare_seed(program, kind, seed), seeds)):
                random.add(f"{kind} {seed}", *answers)
    print(f"live beside audit: {stored.conforming} stored captures conform, {stored.missed + stored.lost} of them not by live;")
    print(f"  {random.conforming} random ones conform, live misses {random.missed}, and loses {random.lost} packet by packet")
    return 1 if stored.missed or stored.lost or random.lost or random.missed > words.most else 0


if __name__ == "__main__":
    sys.exit(main())
