#!/usr/bin/env python3
"""Runs turnprep on the cases of tests/prepare, and compares its status, what it tells and what it wrote.
Of what `cut` wrote the comment is taken off and read (tests/cut_comments.py).

    tests/prepare.py PROGRAM

Each line of tests/prepare/cases is a name and the words, in which OUT is a new folder. Of words that are no request
only the status is compared, since clap says the rest. Then it asks for what no case has: that a file that is there is
never written over, that a missing file of a ring is told, what `cut` tells of its words, what it leaves out behind a Refresh
of 0 (tests/hang_ups.py), and the comment of a big-endian capture and of one that was cut before.
"""

import datetime
import hashlib
import pathlib
import struct
import subprocess
import sys
import tempfile

import cut_comments
import hang_ups

HERE = pathlib.Path(__file__).resolve().parent / "prepare"
# Moments at which clients of long-midcall.pcapng have calls that began before, in nanoseconds since 1970.
MOMENTS = 1795670931076547165, 1795670931464667317, 1795670932777584387


def run(program, words):
    return subprocess.run([program, *words], cwd=HERE, capture_output=True, text=True)


def told_by(program, words):
    """What a case's file in expected/ has."""
    with tempfile.TemporaryDirectory() as folder:
        done = run(program, [word.replace("OUT", folder) for word in words])
        if done.returncode == 5:
            return "status 5\n"
        text = f"status {done.returncode}\n{done.stdout}"
        if done.stderr:
            text += f"stderr\n{done.stderr}"
        for file in sorted(pathlib.Path(folder).iterdir()):
            written = file.read_bytes()
            if words[0] == "cut" and file.suffix == ".pcapng":
                original = (HERE / next(word for word in words if word.endswith(f"/{file.name}"))).read_bytes()
                fault = cut_comments.fault_of(written, original)
                text += f"{fault}\n" if fault else ""
                written, _ = cut_comments.parted(written)
            text += f"wrote {file.name} {len(written)} bytes {hashlib.sha256(written).hexdigest()}\n"
        return text


def expected(name):
    text = (HERE / "expected" / name).read_text()
    return "status 5\n" if text.startswith("status 5\n") else text


def check_files(program):
    """What a run does with files that are there, and with a ring that lacks one."""
    faults = []
    with tempfile.TemporaryDirectory() as folder:
        there = pathlib.Path(folder) / "there"
        there.write_text("kept")
        done = run(program, ["join", "-o", str(there), "inputs/ring1.pcapng"])
        if done.returncode != 4 or there.read_text() != "kept":
            faults.append("writes over a file that is there")
        names = [f"{folder}/ring_0000{n}_20261126120000.pcapng" for n in (1, 3)]
        for name, number in zip(names, (1, 2)):
            pathlib.Path(name).write_bytes((HERE / f"inputs/ring{number}.pcapng").read_bytes())
        done = run(program, ["join", "-o", f"{folder}/out", *names])
        if done.returncode != 2 or "number 3" not in done.stderr:
            faults.append("joins a ring that lacks a file")
        torn = pathlib.Path(folder) / "torn"
        torn.write_bytes((HERE / "inputs/ring1.pcapng").read_bytes()[:-3])
        done = run(program, ["join", "-o", f"{folder}/out2", str(torn)])
        if done.stderr != "turnprep: refused C1 in capture 0: the capture ends inside a block\n":
            faults.append("takes a torn capture")
        done = run(program, ["join", "-o", f"{folder}/out3", f"{folder}/absent"])
        if done.returncode != 4:
            faults.append("reads a file that is not there")
    return faults


def check_cut(program):
    """Files that are there, a policy that is none, and what the list's head tells."""
    faults = []
    with tempfile.TemporaryDirectory() as folder:
        pathlib.Path(folder, "new").mkdir()
        words = ["--policy", "inputs/policy", "-o", f"{folder}/new", "inputs/midcall-late.pcapng"]
        done = run(program, ["cut", "--lifetime", "7200", "--keep-inner", *words])
        if done.returncode != 0 or "\nlifetime 7200\nkeep-inner\nclient " not in done.stdout:
            faults.append("doesn't tell what is stated")
        if done.stdout != pathlib.Path(f"{folder}/new/set-aside").read_text():
            faults.append("tells another list than it writes")
        if run(program, ["cut", *words]).returncode != 4:
            faults.append("cuts over a file that is there")
        done = run(program, ["cut", "--policy", "inputs/plain.conf", *words[2:]])
        if done.returncode != 2 or not done.stderr.endswith("in policy line 1: a line of another form, or a line too few\n"):
            faults.append("takes a policy that is none")
        for wrong in (["--since", "2", "--until", "1"], ["--since", "x"], ["--since", "2026-11-26T12:00:00"], ["--released-ms", "60001"], ["--released-ms", "x"]):
            if run(program, ["cut", *wrong, *words]).returncode != 5:
                faults.append(f"takes {wrong}")
    return faults


def check_released(program):
    """What is set aside behind a Refresh of 0, and that the list's head says for how long."""
    faults = []
    for relays, time, lines, _ in hang_ups.CASES:
        with tempfile.TemporaryDirectory() as room:
            folder = pathlib.Path(room)
            captures = hang_ups.build(folder, relays)
            (folder / "out").mkdir()
            said = ["--released-ms", str(time)] if time else []
            done = run(program, ["cut", *said, "--policy", str(folder / "policy"), "-o", str(folder / "out"), *map(str, captures)])
            told = done.stdout.splitlines()
            head = [f"released-ms {time}"] if time else []
            if [line for line in told if line.startswith("released")] != [*head, *lines]:
                faults.append(f"{relays.__name__} {time}: {done.stdout}{done.stderr}")
    return faults


def begun_at(capture, moment):
    """The blocks of a little-endian capture with stamps in nanoseconds, without the packets before a moment."""
    kept, at = b"", 0
    while at < len(capture):
        kind, size = struct.unpack_from("<II", capture, at)
        high, low = struct.unpack_from("<II", capture, at + 12)
        if kind != 6 or high << 32 | low >= moment:
            kept += capture[at : at + size]
        at += size
    return kept


def date_and_time(moment):
    """A moment as RFC 3339 has it, of a clock that is two hours ahead."""
    second = datetime.datetime.fromtimestamp(moment // 10**9 + 7200, datetime.timezone.utc)
    return f"{second:%Y-%m-%dT%H:%M:%S}.{moment % 10**9:09}+02:00"


def check_since(program):
    """With --since the same is written as of a capture that begins at that moment."""
    faults = []
    capture = (HERE / "inputs/long-midcall.pcapng").read_bytes()
    for moment in MOMENTS:
        with tempfile.TemporaryDirectory() as room:
            folder = pathlib.Path(room)
            for name in ("since", "begun", "dated"):
                (folder / name).mkdir()
            (folder / "long-midcall.pcapng").write_bytes(begun_at(capture, moment))
            words = ["cut", "--policy", "inputs/policy", "-o"]
            done = run(program, [*words, f"{room}/since", "--since", str(moment), "inputs/long-midcall.pcapng"])
            dated = run(program, [*words, f"{room}/dated", "--since", date_and_time(moment), "inputs/long-midcall.pcapng"])
            if dated.stdout != done.stdout:
                faults.append(f"--since {date_and_time(moment)} differs from --since {moment}: {dated.stdout}{dated.stderr}")
            run(program, [*words, f"{room}/begun", f"{room}/long-midcall.pcapng"])
            written = [cut_comments.parted((folder / name / "long-midcall.pcapng").read_bytes())[0] for name in ("since", "begun")]
            if done.returncode != 0 or written[0] != written[1]:
                faults.append(f"--since {moment} differs from a capture that begins there: {done.stdout}{done.stderr}")
    return faults


def check_comments(program):
    """The comment of a big-endian capture, and of one that was cut before."""
    faults = []
    original = HERE.parent / "answers" / "capture-big-endian"
    with tempfile.TemporaryDirectory() as room:
        read = original / "cap0"
        for name in ("once", "twice"):
            folder = pathlib.Path(room, name)
            folder.mkdir()
            done = run(program, ["cut", "--policy", str(original / "policy"), "-o", str(folder), str(read)])
            written = (folder / "cap0").read_bytes() if done.returncode == 0 else b""
            if not written or cut_comments.parted(written)[0] != read.read_bytes():
                faults.append(f"a big-endian capture cut {name} lost bytes: {done.stderr}")
                break
            if fault := cut_comments.fault_of(written, read.read_bytes()):
                faults.append(f"a big-endian capture cut {name}: {fault}")
            read = folder / "cap0"
    return faults


def main():
    program = pathlib.Path(sys.argv[1]).resolve()
    faults = check_files(program) + check_cut(program) + check_released(program) + check_since(program) + check_comments(program)
    cases = [line.split(" | ") for line in (HERE / "cases").read_text().splitlines()]
    for name, words in cases:
        if told_by(program, words.split()) != expected(name):
            faults.append(f"case {name} differs")
    for fault in faults:
        print(fault)
    print(f"{len(cases)} cases, {len(faults)} faults")
    return 1 if faults else 0


if __name__ == "__main__":
    sys.exit(main())
