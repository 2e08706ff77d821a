#!/usr/bin/env python3
"""Runs `turnprep ready` on captures of relays in use, then the audit that it prints, and then the commands that it lists by hand.

    tests/ready.py TURNPREP TURNAUDIT

Of each case the verdict is the one of the captures' case in tests/prepare/judged, where they are prepared by single commands. Kinds that
have no stored capture are built (tests/relay_kinds.py): judged is what is judged of a quiet relay without any preparation, and so many
datagrams and clients more. What the listed commands make has to be what `ready` made, byte for byte. Calls that fail may leave nothing behind.
"""

import os
import pathlib
import shlex
import shutil
import subprocess
import sys
import tempfile

import relay_kinds

TOP = pathlib.Path(__file__).resolve().parent.parent
INPUTS = TOP / "tests" / "prepare" / "inputs"
GIVEN = "--policy policy --creds creds"
RING = [(f"ring{n}.pcapng", f"it's a ring_0000{n}_2026112612000{n}.pcapng") for n in range(1, 6)]


def of_example(name):
    folder = shlex.quote(str(TOP / "examples" / name))
    return f"--policy {folder}/policy --creds {folder}/creds {folder}/cap.pcapng"


# A name, the arguments, the lines that are printed before the command, and the verdict.
CASES = [
    ("one client from before", f"{GIVEN} midcall-late.pcapng", ["excluded 162 of 164 datagrams 99 percent departures 81 unpaired 0 unread 0 clients 1"], "conforming 2 datagrams 1 lanes"),
    ("clients from before", f"{GIVEN} long-midcall.pcapng", ["excluded 1092 of 1940 datagrams 57 percent departures 548 unpaired 0 unread 0 clients 4"], "conforming 848 datagrams 7 lanes"),
    ("a client by TCP", f"{GIVEN} tcp-client.pcapng", ["excluded 20 of 30 datagrams 67 percent departures 10 unpaired 0 unread 10 clients 0"], "conforming 10 datagrams 1 lanes"),
    ("a translated address", "--policy policy-outer --creds creds external-ip.pcapng", ["translated 3 198.18.0.1/192.0.2.1"], "conforming 16 datagrams 1 lanes"),
    ("clients that relay to each other", f"{GIVEN} relay2relay-coturn.pcapng", ["excluded 4 of 20 datagrams 20 percent departures 2 unpaired 0 unread 0 clients 0"], "conforming 16 datagrams 2 lanes"),
    ("before a restart", f"{GIVEN} --until 1795393570308432166 --from-start restart-coturn.pcapng", ["excluded 39 of 63 datagrams 62 percent departures 18 unpaired 0 unread 0 clients 0"], "conforming 24 datagrams 3 lanes"),
    ("after a restart", f"{GIVEN} --since 1795393570308432167 --from-start restart-coturn.pcapng", ["excluded 24 of 63 datagrams 39 percent departures 12 unpaired 0 unread 0 clients 0"], "conforming 39 datagrams 3 lanes"),
    ("passwords of a secret", "--turnserver-conf secret.conf rest-secret.pcapng", [], "conforming 30 datagrams 3 lanes"),
    ("files of a ring", f"{GIVEN} " + " ".join(shlex.quote(name) for _, name in reversed(RING)), None, "conforming 1260 datagrams 20 lanes"),
    ("fragments", of_example("refused-fragments"), ["reassembled 1 datagrams of 2 fragments"], "conforming 10 datagrams 1 lanes"),
    ("an interface that ends early", f"{GIVEN} midcall-early.pcapng", ["note an interface ends at 1795393607120161610, and datagrams without a cause left later: if it was captured no longer, add --until 1795393607120161610"], "not shown"),
    ("up to its end", f"{GIVEN} --until 1795393607120161610 midcall-early.pcapng", ["excluded 6 of 112 datagrams 6 percent departures 3 unpaired 0 unread 0 clients 0"], "conforming 106 datagrams 1 lanes"),
    ("nothing to do", of_example("coturn-send-data"), [], "conforming 46 datagrams 1 lanes"),
    ("names that begin with a dash", "--policy=-policy --creds=-creds -- -one.pcapng", ["excluded 162 of 164 datagrams 99 percent departures 81 unpaired 0 unread 0 clients 1"], "conforming 2 datagrams 1 lanes"),
]

# A name, the arguments, the exit status, and what standard error has.
REFUSED = [
    ("a restart", f"{GIVEN} restart-coturn.pcapng", 2, "turnprep: the server was restarted: add --until 1795393570308432166 for the time before, or --since 1795393570308432167 --from-start for the time after\n"),
    ("a ring that lacks a file", f"{GIVEN} {shlex.quote(RING[2][1])} {shlex.quote(RING[0][1])}", 2, "turnprep: refused capture 0 is number 1 of the ring and capture 1 is number 3\n"),
    ("no source of a policy", "--creds creds realloc-coturn.pcapng", 5, "turnprep: ready takes --turnserver-conf or --policy, one of both\n"),
    ("both sources", "--policy policy --turnserver-conf secret.conf realloc-coturn.pcapng", 5, "turnprep: ready takes --turnserver-conf or --policy, one of both\n"),
    ("no capture of a relay", "--policy policy creds", 2, "turnprep: refused C5 in capture 0: not a pcapng file\n"),
    ("credentials without an end", "--policy policy --creds /dev/zero realloc-coturn.pcapng", 5, "turnprep: --creds has more than 16777216 bytes\n"),
    ("two captures of a name", f"{GIVEN} realloc-coturn.pcapng ./realloc-coturn.pcapng", 2, "turnprep: refused the name of capture 1: an earlier one has it\n"),
    ("a pipe as a configuration", "--turnserver-conf /dev/stdin realloc-coturn.pcapng", 2, "turnprep: refused /dev/stdin: it has to be a file that can be read twice\n"),
    ("nothing that is kept", f"{GIVEN} --until 1 realloc-coturn.pcapng", 6, "turnprep: kept 0 datagrams\n"),
]


class Room:
    """A folder with the inputs, in which the programs are called by their names."""

    def __init__(self, folder, preparer, auditor):
        self.folder = pathlib.Path(folder)
        programs = self.folder / "programs"
        programs.mkdir()
        (programs / "turnprep").symlink_to(preparer)
        (programs / "turnaudit").symlink_to(auditor)
        self.path = f"{programs}:{os.environ['PATH']}"
        for file in INPUTS.iterdir():
            shutil.copy(file, self.folder / file.name)
        for file, name in (("policy", "-policy"), ("creds", "-creds"), ("midcall-late.pcapng", "-one.pcapng")):
            shutil.copy(INPUTS / file, self.folder / name)
        for file, name in RING:
            shutil.copy(INPUTS / file, self.folder / name)

    def run(self, line):
        return subprocess.run(["sh", "-c", line], cwd=self.folder, env={**os.environ, "PATH": self.path}, capture_output=True, text=True)

    def files(self, name):
        folder = self.folder / name
        return {file.name: file.read_bytes() for file in folder.iterdir() if file.is_file()} if folder.is_dir() else {}


def verdict_of(done):
    lines = done.stdout.splitlines()
    return lines[1] if len(lines) > 1 else done.stderr.strip()


def check(room, name, words, said, verdict):
    """What is wrong with a case."""
    done = room.run(f"turnprep ready -o 'a folder/' {words}")
    lines = done.stdout.splitlines()
    if done.returncode != 0 or lines[0] != "turnprep-ready 1":
        return [f"{name}: status {done.returncode} {done.stdout}{done.stderr}"]
    faults = []
    if said is not None and lines[1:-1] != said:
        faults.append(f"{name}: prints {lines[1:-1]}")
    if verdict_of(room.run(lines[-1])) != verdict:
        faults.append(f"{name}: the audit says {verdict_of(room.run(lines[-1]))}")
    made = room.files("a folder")
    if not {"policy", "creds", "steps"} <= set(made) or (room.folder / "a folder.part").exists():
        faults.append(f"{name}: makes {sorted(made)}")
    by_hand = room.run("sh -e 'a folder/steps'")
    if verdict_of(subprocess.CompletedProcess([], 0, by_hand.stdout[by_hand.stdout.find("turnaudit-report") :], by_hand.stderr)) != verdict:
        faults.append(f"{name}: by hand {by_hand.stdout[-300:]}{by_hand.stderr}")
    hand = {**room.files("a folder.by-hand"), **room.files("a folder.by-hand/ready")}
    for file, content in hand.items():
        if made.get(file) != content:
            faults.append(f"{name}: {file} differs by hand")
    for folder in ("a folder", "a folder.by-hand"):
        shutil.rmtree(room.folder / folder, ignore_errors=True)
    return faults


def kinds(room):
    """The cases of the kinds that are built."""
    captures = relay_kinds.quiet(room.folder / "quiet")
    done = room.run(shlex.join(["turnaudit", "audit", "--policy", "quiet/policy", "--creds", "quiet/creds", *map(str, captures)]))
    count = int(verdict_of(done).removeprefix("conforming ").split()[0])
    for number, (name, does, options, more, clients, is_rewritten) in enumerate(relay_kinds.KINDS):
        folder = f"kind{number}"
        captures = relay_kinds.build(room.folder / folder, does, options, is_rewritten)
        words = f"--policy {folder}/policy --creds {folder}/creds {options} " + shlex.join(str(path) for path in captures)
        yield name, words, None, f"conforming {count + more} datagrams {1 + clients} lanes"


def check_refused(room, name, words, status, said):
    """What is wrong with a call that fails."""
    before = sorted(file.name for file in room.folder.iterdir())
    done = room.run(f"cat secret.conf | turnprep ready -o 'a folder' {words}")
    faults = []
    if (done.returncode, done.stdout, done.stderr) != (status, "", said):
        faults.append(f"{name}: status {done.returncode} {done.stdout}{done.stderr}")
    if sorted(file.name for file in room.folder.iterdir()) != before:
        faults.append(f"{name}: leaves files")
    return faults


def check_there(room):
    """A folder that is there, and one that another call left."""
    faults = []
    for folder in ("there", "other.part"):
        (room.folder / folder).mkdir()
        (room.folder / folder / "kept").write_text("kept")
    for folder in ("there", "other"):
        done = room.run(f"turnprep ready -o {folder} {GIVEN} realloc-coturn.pcapng")
        if done.returncode != 4 or done.stdout:
            faults.append(f"takes the folder {folder}: {done.stdout}{done.stderr}")
    for folder in ("there", "other.part"):
        if room.files(folder) != {"kept": b"kept"}:
            faults.append(f"changes {folder}")
    if (room.folder / "other").exists() or (room.folder / "there.part").exists():
        faults.append("leaves a folder")
    return faults


def main():
    preparer, auditor = (pathlib.Path(word).resolve() for word in sys.argv[1:3])
    faults = []
    with tempfile.TemporaryDirectory() as folder:
        room = Room(folder, preparer, auditor)
        cases = [*CASES, *kinds(room)]
        for case in cases:
            faults += check(room, *case)
        for case in REFUSED:
            faults += check_refused(room, *case)
        faults += check_there(room)
    for fault in faults:
        print(fault)
    print(f"{len(cases)} folders and {len(REFUSED) + 2} refusals of turnprep ready, {len(faults)} faults")
    return 1 if faults else 0


if __name__ == "__main__":
    sys.exit(main())
