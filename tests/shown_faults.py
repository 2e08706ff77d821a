#!/usr/bin/env python3
"""Asks `turnexplain faults` for the faults of captures of which it is known what no order explains.

    python3 tests/shown_faults.py TURNEXPLAIN TURNAUDIT [--count 300]

Captures that conform show none: those in examples, and those of a simulated server that keeps to RFC 8656, as many of each kind as
--count says. Of a capture of coturn that relayed after a permission's end the datagrams were counted by hand. Then stored captures are
changed: a byte of what is relayed, a response or its exchange taken out, another password. What has to be shown then is told by the
frames, which are read here. None of that shares code with the program. At last files are damaged, as many times: it has to refuse what
TURNAUDIT refuses, for the same reason, and to show no fault where that says conforming.

The simulated servers are those of tests/random_captures.py and tests/edge_captures.py, and files are damaged as by tests/fuzz.py.
"""

import argparse
import concurrent.futures
import os
import pathlib
import random
import re
import struct
import subprocess
import sys
import tempfile

HERE = pathlib.Path(__file__).resolve().parent
sys.path.insert(0, str(HERE))
sys.dont_write_bytecode = True

from edge_captures import EdgeCase
from fuzz import Stored, damaged
from random_captures import Case
from second_opinion import Tries

EXAMPLES = HERE.parent / "examples"
SERVER = bytes([192, 0, 2, 1])
FIRST_RELAY_PORT = 49152
# The types of messages: an Allocate success, a CreatePermission success and its request.
ALLOCATED, PERMITTED, PERMIT = 0x0103, 0x0108, 0x0008
# The ChannelBind success of coturn-permission-outlived, frame 18: with it the permission began that ended 300 seconds later.
GRANTED = "0.15"
# Departures of long-midcall.pcapng for 192.0.2.1:53515: 60 frames are sent from it, and 60 are received at it. Each of these is sent on.
MIDCALL = 120


def ask(program, policy, creds, captures):
    """The status, the faults as (datagram, title), the lines on beginnings, and standard error."""
    done = subprocess.run([program, "faults", "--policy", policy, "--creds", creds, *captures], capture_output=True, text=True)
    faults = re.findall(r"^fault (\S+) (.*)$", done.stdout, re.M)
    beginnings = re.findall(r"^(beginning (?:not )?captured)", done.stdout, re.M)
    return done.returncode, faults, beginnings, done.stderr


def granted_when(program, policy, creds, captures):
    """How many of the faults say of what they lacked that it was never granted, granted later, or had expired."""
    done = subprocess.run([program, "faults", "--policy", policy, "--creds", creds, *captures], capture_output=True, text=True)
    return {words: len(re.findall(f"^{words}: ", done.stdout, re.M)) for words in ("never granted", "granted later", "expired")}


def reason_in(line):
    """The number of the reason for a refusal, as C4, in what standard error tells; else the whole line."""
    found = re.search(r"(?:refused |, )([A-Z]\d+)\b", line)
    return found.group(1) if found else line


def blocks_of(capture):
    """The blocks of a little-endian capture."""
    at = 0
    while at < len(capture):
        size = struct.unpack_from("<I", capture, at + 4)[0]
        yield capture[at:at + size]
        at += size


def ends_of(block):
    """Of a block with an IPv4 UDP frame: the address and port that it is from, and where its payload begins and ends; else None."""
    if struct.unpack_from("<I", block)[0] != 6 or block[40:42] != b"\x08\x00" or block[51] != 17:
        return None
    udp = 42 + 4 * (block[42] & 15)
    port, length = struct.unpack_from(">H2xH", block, udp)
    return block[54:58], port, udp + 8, udp + length


def is_relayed(block):
    """Whether the server sent it from a relayed address."""
    ends = ends_of(block)
    return ends is not None and ends[0] == SERVER and ends[1] >= FIRST_RELAY_PORT


def is_message(block, types):
    """Whether its payload is a message of one of these types."""
    ends = ends_of(block)
    return ends is not None and struct.unpack_from(">H", block, ends[2])[0] in types


def numbered(blocks):
    """The blocks that have a datagram, each with its name, in the order of interface and number. All UDP frames of these captures are of the service."""
    rows = {}
    for block in blocks:
        if ends_of(block) is not None:
            rows.setdefault(struct.unpack_from("<I", block, 8)[0], []).append(block)
    for interface, row in sorted(rows.items()):
        for number, block in enumerate(row):
            yield block, f"{interface}.{number}"


def with_a_byte_changed(block):
    """The block with another last byte of payload."""
    at = ends_of(block)[3] - 1
    return block[:at] + bytes([block[at] ^ 1]) + block[at + 1:]


def try_examples(tries, program):
    """A capture that conforms shows no fault, and one that is refused is refused for the same reason."""
    for folder in sorted(EXAMPLES.iterdir()):
        if not (folder / "expected").is_file():
            continue
        captures = sorted(folder.glob("*.pcapng"))
        wanted = (folder / "expected").read_text()
        status, faults, _, told = ask(program, folder / "policy", folder / "creds", captures)
        if "conforming" in wanted:
            tries.same(folder.name, (0, [], ""), (status, faults, told))
        elif "refused" in wanted:
            tries.same(folder.name, (2, reason_in(wanted)), (status, reason_in(told)))


def try_outlived(tries, program):
    """coturn relayed 40 datagrams after a permission's end and the grace; another user's Refresh is none of the faults."""
    folder = EXAMPLES / "coturn-permission-outlived"
    status, faults, _, _ = ask(program, folder / "policy", folder / "creds", [folder / "cap.pcapng"])
    found = (status, len(faults), {title for _, title in faults}, faults[0][0], faults[-1][0])
    tries.same(folder.name, (1, 40, {"relayed without a permission"}, "0.423", "0.625"), found)
    tries.same(f"{folder.name}, the success", (40, {GRANTED}, 48_986_820), looked_at(program, folder))
    found = granted_when(program, folder / "policy", folder / "creds", [folder / "cap.pcapng"])
    tries.same(f"{folder.name}, when", {"never granted": 0, "granted later": 0, "expired": 40}, found)
    folder = EXAMPLES / "processone-other-user"
    status, faults, _, _ = ask(program, folder / "policy", folder / "creds", [folder / "cap.pcapng"])
    tries.same(folder.name, (0, []), (status, faults))


def looked_at(program, folder):
    """How many faults name the success that granted the lease last, which ones, and by how many nanoseconds the first is too early."""
    words = [program, "faults", "--policy", folder / "policy", "--creds", folder / "creds", folder / "cap.pcapng"]
    told = subprocess.run(words, capture_output=True, text=True).stdout
    found = re.findall(r"^last granted by datagram (\S+), too early by (\d+) nanoseconds for datagram \S+$", told, re.M)
    return len(found), {name for name, _ in found}, int(found[0][1])


def try_midcall(tries, program):
    """A capture that begins in the middle of calls. No Allocate success in it tells 198.51.100.7:41000 the address 192.0.2.1:53515, at which 60
    datagrams are relayed each way before the client is told another address."""
    folder = HERE / "prepare" / "inputs"
    words = [program, "faults", "--policy", folder / "policy", "--creds", folder / "creds", folder / "long-midcall.pcapng"]
    told = subprocess.run(words, capture_output=True, text=True).stdout
    faults = [fault for fault in told.split("\nfault ")[1:] if "relayed without an allocation\n" in fault]
    of_it = [fault for fault in faults if "192.0.2.1:53515 to" in fault or "to 198.51.100.7:41000 " in fault]
    too_late = "\nbeginning not captured: the capture began too late for that relayed address; "
    tries.same("midcall, of the client", MIDCALL, len(of_it))
    tries.same("midcall, began too late", MIDCALL, sum(too_late in fault and "\nnever granted: " in fault for fault in of_it))


def stamped_as(block, other):
    """The block with the timestamp of another."""
    return block[:12] + other[12:20] + block[20:]


def try_changed(tries, program):
    """What is changed in a capture that conforms is shown, and of what follows from it everything."""
    folder = EXAMPLES / "coturn-send-data"
    blocks = list(blocks_of((folder / "cap.pcapng").read_bytes()))
    relayed = [name for block, name in numbered(blocks) if is_relayed(block)]
    last = max(place for place, block in enumerate(blocks) if is_relayed(block))

    def shown(name, changed, wanted, creds=None):
        with tempfile.TemporaryDirectory() as room:
            capture = pathlib.Path(room, "cap.pcapng")
            capture.write_bytes(b"".join(changed))
            users = pathlib.Path(room, "creds")
            users.write_text(creds or (folder / "creds").read_text())
            status, faults, beginnings, _ = ask(program, folder / "policy", users, [capture])
        tries.same(name, (1, *wanted), (status, faults, beginnings))

    shown(
        "another byte relayed",
        [with_a_byte_changed(block) if place == last else block for place, block in enumerate(blocks)],
        ([(relayed[-1], "sent unasked")], []),
    )
    without = [block for block in blocks if not is_message(block, {ALLOCATED})]
    served = [(name, "relayed without an allocation") for block, name in numbered(without) if is_data(block)]
    shown("no Allocate success", without, (served, ["beginning not captured"] * len(served)))
    without = [block for block in blocks if not is_message(block, {PERMITTED, PERMIT})]
    served = [(name, "relayed without a permission") for block, name in numbered(without) if is_data(block)]
    shown("no CreatePermission", without, (served, ["beginning captured"] * len(served)))
    exchange = [block for block in blocks if is_message(block, {PERMITTED, PERMIT})]
    latest = max((block for block in blocks if ends_of(block)), key=lambda block: struct.unpack_from("<II", block, 12))
    moved = without + [stamped_as(block, latest) for block in exchange]
    shown("CreatePermission at the end", moved, (served, ["beginning captured"] * len(served)))
    for name, changed, wanted in (("no CreatePermission", without, "never granted"), ("CreatePermission at the end", moved, "granted later")):
        with tempfile.TemporaryDirectory() as room:
            capture = pathlib.Path(room, "cap.pcapng")
            capture.write_bytes(b"".join(changed))
            found = granted_when(program, folder / "policy", folder / "creds", [capture])
        tries.same(f"{name}, when", {words: len(served) if words == wanted else 0 for words in found}, found)
    granted = [(name, "granted without a user's request") for block, name in numbered(blocks) if is_message(block, {ALLOCATED, PERMITTED, 0x0104, 0x0109})]
    wrong = re.sub(r"[^\t\n]+(?=\n)", "another", (folder / "creds").read_text())
    shown("another password", blocks, (granted, []), wrong)


def is_data(block):
    """Whether it is data that was relayed, to a peer or in a Data indication to a client."""
    ends = ends_of(block)
    return is_relayed(block) or ends is not None and ends[0] == SERVER and is_message(block, {0x0017})


def shown_of(words):
    """The faults of a simulated capture."""
    program, kind, seed = words
    with tempfile.TemporaryDirectory() as name:
        folder = pathlib.Path(name)
        paths = kind(seed).write(folder)
        return seed, ask(program, folder / "policy", folder / "creds", [folder / path for path in paths])


def try_simulated(tries, program, count):
    """What a server did that keeps to RFC 8656 is no fault."""
    with concurrent.futures.ProcessPoolExecutor() as pool:
        for kind in (Case, EdgeCase):
            words = [(program, kind, seed) for seed in range(1, count + 1)]
            for seed, (status, faults, _, told) in pool.map(shown_of, words, chunksize=8):
                tries.same(f"{kind.__name__} {seed}", (0, [], ""), (status, faults, told))


def told_of(words):
    """What the two programs tell of damaged files."""
    program, turnaudit, case, number = words
    chance, files = random.Random(number), dict(case.files)
    for _ in range(chance.choice((1, 1, 2))):
        name = chance.choice([*case.captures, *case.captures, *sorted(files.keys() - {"cert"})])
        files[name] = damaged(chance, case.policy, name, files[name], files[name] is case.files[name])
    with tempfile.TemporaryDirectory() as room:
        case.write(pathlib.Path(room), files)
        audit, *others = case.words("audit")
        told = [subprocess.run([*start, *others], cwd=room, capture_output=True, text=True, timeout=20) for start in ([turnaudit, audit], [program, "faults"])]
    return number, told


def try_damaged(tries, program, turnaudit, count):
    """It refuses what turnaudit refuses, and shows nothing of what conforms."""
    cases = [Stored(turnaudit, folder) for folder in sorted(EXAMPLES.iterdir()) if (folder / "policy").is_file() and not folder.name.startswith("refused")]
    words = [(program, turnaudit, cases[number % len(cases)], number) for number in range(count)]
    with concurrent.futures.ThreadPoolExecutor(os.cpu_count()) as pool:
        for number, (audit, shown) in pool.map(told_of, words):
            if audit.returncode in (0, 1):
                heading = shown.stdout.startswith("turnaudit-faults 1\n") and shown.stdout.endswith(" datagrams\n")
                tries.same(f"damaged {number}", (True, True, ""), (shown.returncode in (0, audit.returncode), heading, shown.stderr))
            else:
                tries.same(f"damaged {number}", (audit.returncode, "", reason_in(audit.stderr)), (shown.returncode, shown.stdout, reason_in(shown.stderr)))


def main():
    parser = argparse.ArgumentParser(description=__doc__, formatter_class=argparse.RawDescriptionHelpFormatter)
    parser.add_argument("program")
    parser.add_argument("turnaudit")
    parser.add_argument("--count", type=int, default=300)
    words = parser.parse_args()
    program, turnaudit, tries = os.path.realpath(words.program), os.path.realpath(words.turnaudit), Tries()
    try_examples(tries, program)
    try_outlived(tries, program)
    try_midcall(tries, program)
    try_changed(tries, program)
    try_simulated(tries, program, words.count)
    try_damaged(tries, program, turnaudit, words.count)
    print(f"shown faults: {tries.count - tries.failed} passed, {tries.failed} failed")
    sys.exit(1 if tries.failed else 0)


if __name__ == "__main__":
    main()
