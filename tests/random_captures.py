#!/usr/bin/env python3
"""Audits random captures of a simulated server that keeps to RFC 8656, and tells those that are not shown.

    python3 tests/random_captures.py PROGRAM [--first 1] [--count 500] [--most MISSED] [--one-after-another]
    python3 tests/random_captures.py --write FOLDER --first SEED

Requests are lost and copied, up to 4 clients share up to 6 relayed addresses, and each interface's clock is ahead or behind by up to
450 microseconds, within the skew of the policy. Where a capture is not shown, the certificate of what the simulated server did
is checked, too: that has to conform. With --write a case is written to a folder, that certificate among it (truth).
With --one-after-another only those servers count that finish one datagram before the next. With --most it ends with status 1 where
more than so many are not shown, and always where `check` by the certificate of `find` says otherwise than `audit` of a capture.

The simulated server is tests/simulated.py, messages and blocks are made by bench/make_capture.py; tests/edge_captures.py goes by
`Case` and `main` of this file. None of them shares code with turnaudit or with the plain checker of tests/plain.
"""

import argparse
import concurrent.futures
import os
import pathlib
import random
import struct
import subprocess
import sys
import tempfile

sys.path.insert(0, str(pathlib.Path(__file__).resolve().parent.parent / "bench"))

from make_capture import INTERFACE, SECTION, SERVER, ip_bytes
from simulated import FIRST_PORT, SKEW, USERS, Clients, Server, client_address


def packet_block(stamp, seen):
    """A packet block of the datagram, stamped in microseconds."""
    udp = struct.pack(">HHHH", seen.source[1], seen.target[1], 8 + len(seen.payload), 0) + seen.payload
    ip = struct.pack(">BBHHHBBH", 0x45, 0, 20 + len(udp), 0, 0, 64, 17, 0)
    ip += ip_bytes(seen.source[0]) + ip_bytes(seen.target[0])
    frame = bytes([2, 0, 0, 0, 0, 1, 2, 0, 0, 0, 0, 2, 8, 0]) + ip + udp
    size = 32 + len(frame) + -len(frame) % 4
    head = struct.pack("<IIIIIII", 6, size, 0, stamp >> 32, stamp & 0xFFFFFFFF, len(frame), len(frame))
    return head + frame + bytes(-len(frame) % 4) + struct.pack("<I", size)


class Case:
    """One simulated run."""

    def __init__(self, seed):
        clients = Clients(seed)
        self.setting = clients.setting
        self.inputs = clients.inputs()
        self.server = Server(self.setting, self.inputs)
        self.server.run()

    def captures(self):
        """The bytes of each interface's capture, and the name of each datagram."""
        setting = self.setting
        draw = random.Random(setting.seed * 13 + 5)
        captures = [bytearray(SECTION + INTERFACE) for _ in setting.offsets]
        counts = [0] * len(captures)
        names = {}
        for seen in self.server.seen:
            names[(seen.way, seen.input)] = f"{64 * seen.interface}.{counts[seen.interface]}"
            counts[seen.interface] += 1
            error = draw.randint(-setting.jitter, setting.jitter) if setting.jitter else 0
            stamp = (seen.moment + setting.offsets[seen.interface] + error) // 1000
            assert abs(1000 * stamp - seen.moment) < SKEW
            captures[seen.interface] += packet_block(stamp, seen)
        return captures, names

    def truth(self, names):
        """The certificate of what the server did."""
        lanes = {}
        for client, number, act, leaves in self.server.acts:
            came, left = names[("in", number)], names[("out", number)]
            lanes.setdefault(client, []).extend([
                (self.inputs[number].arrival, f"in {came}"),
                (act, f"act {came} {left}"),
                (leaves, f"out {left}"),
            ])
        lines = ["turnaudit-certificate 1"]
        for client, events in sorted(lanes.items()):
            lines.append("lane %s:%d %s:%d" % (*client_address(client), *SERVER))
            lines += [f"{words} {moment} 0" for moment, words in sorted(events)]
        answered = {number for _, number, _, _ in self.server.acts}
        drops = [(one.arrival, names[("in", number)]) for number, one in enumerate(self.inputs) if number not in answered]
        lines += [f"drop {name} {moment} 0" for moment, name in sorted(drops)]
        return "".join(f"{line}\n" for line in [*lines, "end"])

    def policy(self):
        return f"turnaudit-policy 1\nlisten 192.0.2.1:3478\nrelay 192.0.2.1:{FIRST_PORT}-65535\n"

    def write(self, folder):
        captures, names = self.captures()
        paths = []
        for number, capture in enumerate(captures):
            paths.append(f"interface{number}.pcapng")
            (folder / paths[-1]).write_bytes(capture)
        (folder / "policy").write_text(self.policy())
        (folder / "creds").write_text("".join(f"{user}\texample.org\tsecret\n" for user in USERS))
        (folder / "truth").write_text(self.truth(names))
        return paths


def run(program, folder, paths, *words):
    command = [program, *words, "--policy", "policy", "--creds", "creds", *paths]
    done = subprocess.run(command, cwd=folder, capture_output=True, text=True)
    return done.returncode, done.stdout + done.stderr


def audit(program, seed, build):
    """Whether the server of that seed acts on one datagram after another, what is wrong, if anything, and whether `find` tells the same."""
    case = build(seed)
    with tempfile.TemporaryDirectory() as name:
        folder = pathlib.Path(name)
        paths = case.write(folder)
        status, text = run(program, folder, paths, "audit")
        written, certificate = run(program, folder, paths, "find")
        (folder / "found").write_text(certificate)
        is_same = written == 0 and run(program, folder, paths, "check", "--cert", "found") == (status, text)
        if status == 0:
            return seed, case.setting.sequential, None, is_same
        truth, told = run(program, folder, paths, "check", "--cert", "truth")
        if truth:
            text, before = told, "the truth does not conform: "
        else:
            before = ""
        return seed, case.setting.sequential, before + " | ".join(text.splitlines()[2:5]), is_same


def main(build=Case, about=__doc__):
    parser = argparse.ArgumentParser(description=about, formatter_class=argparse.RawDescriptionHelpFormatter)
    parser.add_argument("program", nargs="?")
    parser.add_argument("--first", type=int, default=1)
    parser.add_argument("--count", type=int, default=500)
    parser.add_argument("--most", type=int)
    parser.add_argument("--one-after-another", action="store_true")
    parser.add_argument("--write", type=pathlib.Path)
    words = parser.parse_args()
    if words.write:
        words.write.mkdir(parents=True, exist_ok=True)
        build(words.first).write(words.write)
        return
    if not words.program:
        parser.error("PROGRAM or --write is needed")
    program = os.path.realpath(words.program)
    missed = tried = differ = 0
    with concurrent.futures.ProcessPoolExecutor() as pool:
        seeds = range(words.first, words.first + words.count)
        for seed, sequential, wrong, is_same in pool.map(audit, [program] * words.count, seeds, [build] * words.count, chunksize=8):
            if words.one_after_another and not sequential:
                continue
            tried += 1
            if wrong:
                missed += 1
                print(f"seed {seed}: {wrong}", flush=True)
            if not is_same:
                differ += 1
                print(f"seed {seed}: check by the certificate of find says otherwise", flush=True)
    print(f"{missed} of {tried} not shown, {differ} told otherwise by the certificate of find")
    if differ or (words.most is not None and missed > words.most):
        raise SystemExit(1)


if __name__ == "__main__":
    main()
