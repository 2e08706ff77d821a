#!/usr/bin/env python3
"""Gives turnaudit damaged captures, policies, credentials and certificates, and looks at how it answers.

    python3 tests/fuzz.py PROGRAM [--seconds 60] [--seed N] [--jobs N] [--keep FOLDER] [--brief] FOLDER..

A folder is a stored case: policy, captures, perhaps creds. Captures are cut to their first blocks, and `find` writes the certificate.
Each try damages one or more of its files, runs `check` and `find` with 1 and with 4 workers, and `audit`, and stops where

- a status is not 0 to 5, a signal ended the program, or a run took over 10 seconds;
- more than one line stands on standard error, or what is written does not belong to the status;
- `check` or `find` answers otherwise by 4 workers than by 1;
- `audit` says otherwise than `check` by the certificate of `find`.

With --brief each try runs one of these commands, so that more inputs are tried in the same time; nothing is compared.

The input that showed it is kept in FOLDER, with the words in `words`. The seed tells all tries; it is printed.
"""

import argparse
import collections
import concurrent.futures
import os
import pathlib
import random
import re
import struct
import subprocess
import sys
import tempfile
import time

sys.path.insert(0, str(pathlib.Path(__file__).parent))

from beside_plain import captures_in, changed_certificate, changed_payload
from plain.reading import read_policy

LONGEST = 10
"""Seconds that a run may take."""

BLOCK_BYTES = 24_000
"""Of a stored capture so many bytes are used, up to the end of a block."""

NUMBERS = [0, 1, 2, 63, 64, 255, 256, 1023, 1024, 65535, 65536, 2**24 - 1, 2**24, 2**31 - 1, 2**31, 2**32 - 4, 2**32 - 1, 2**32, 2**63, 2**64 - 1, 2**64]
"""Where fields of 8, 16, 32 and 64 bits and the limits end."""


def blocks_of(capture):
    """The blocks of a little-endian capture; what is none stands at the end."""
    at, blocks = 0, []
    while at + 12 <= len(capture):
        length = struct.unpack_from("<I", capture, at + 4)[0]
        if length < 12 or length % 4 or at + length > len(capture):
            break
        blocks.append(capture[at:at + length])
        at += length
    if at < len(capture):
        blocks.append(capture[at:])
    return blocks


def front_of(capture):
    """Its first blocks."""
    kept = b""
    for block in blocks_of(capture):
        if kept and len(kept) + len(block) > BLOCK_BYTES:
            break
        kept += block
    return kept


def with_number(chance, data):
    """A number of 1, 2, 4 or 8 bytes is put somewhere, most often at a multiple of its size."""
    size = chance.choice((1, 2, 4, 4, 8))
    if len(data) < size:
        return data
    at = chance.randrange(len(data) - size + 1)
    if chance.random() < 0.7:
        at -= at % size
    number = chance.choice(NUMBERS) % 2 ** (8 * size)
    return data[:at] + number.to_bytes(size, chance.choice(("little", "big"))) + data[at + size:]


def with_other_bytes(chance, data):
    """Bits turned, bytes taken away, put in, doubled or cut off."""
    if not data:
        return bytes(chance.randrange(256) for _ in range(chance.randrange(40)))
    at, length = chance.randrange(len(data)), chance.choice((1, 1, 2, 4, 16, 64))
    way = chance.randrange(6)
    if way == 0:
        return data[:at] + bytes([data[at] ^ 1 << chance.randrange(8)]) + data[at + 1:]
    if way == 1:
        return data[:at] + data[at + length:]
    if way == 2:
        return data[:at] + bytes(chance.randrange(256) for _ in range(length)) + data[at:]
    if way == 3:
        return data[:at] + data[at:at + length] + data[at:]
    if way == 4:
        return data[:at]
    return with_number(chance, data)


def sealed(block):
    """The block with both its lengths right."""
    body = block[8:-4]
    body += bytes(-len(body) % 4)
    length = struct.pack("<I", len(body) + 12)
    return block[:4] + length + body + length


def with_other_blocks(chance, capture):
    """Blocks exchanged, doubled, taken away, of absurd lengths, or damaged inside with their lengths right."""
    blocks = blocks_of(capture)
    if not blocks:
        return capture
    at, other = chance.randrange(len(blocks)), chance.randrange(len(blocks))
    way = chance.randrange(7)
    if way == 0:
        blocks[at], blocks[other] = blocks[other], blocks[at]
    elif way == 1:
        blocks.insert(at, blocks[other])
    elif way == 2:
        del blocks[at]
    elif way == 3:
        length = struct.pack("<I", chance.choice(NUMBERS) % 2**32)
        blocks[at] = blocks[at][:4] + length + blocks[at][8:-4] + chance.choice((length, blocks[at][-4:]))
    elif way == 4 and len(blocks[at]) > 20:
        blocks[at] = blocks[at][:8] + with_number(chance, blocks[at][8:28]) + blocks[at][28:]
    elif len(blocks[at]) > 12:
        blocks[at] = sealed(blocks[at][:8] + with_other_bytes(chance, blocks[at][8:-4]) + blocks[at][-4:])
    return b"".join(blocks)


def with_other_stamp(chance, capture):
    """A packet's stamp moved a little, or to an edge."""
    blocks = blocks_of(capture)
    packets = [number for number, block in enumerate(blocks) if block[:4] == b"\6\0\0\0" and len(block) >= 32]
    if not packets:
        return capture
    at = chance.choice(packets)
    high, low = struct.unpack_from("<II", blocks[at], 12)
    ticks = (high << 32 | low) + chance.choice((-1, 1)) * chance.choice((1, 400, 500, 1_000, 30_000, 1_000_000, 300_000_000))
    if chance.random() < 0.1:
        ticks = chance.choice(NUMBERS)
    ticks %= 2**64
    blocks[at] = blocks[at][:12] + struct.pack("<II", ticks >> 32, ticks % 2**32) + blocks[at][20:]
    return b"".join(blocks)


def with_other_lines(chance, text):
    """Lines exchanged, doubled or taken away, or a number at its edge."""
    lines = text.split(b"\n")
    at, other = chance.randrange(len(lines)), chance.randrange(len(lines))
    way = chance.randrange(5)
    if way == 0:
        lines[at], lines[other] = lines[other], lines[at]
    elif way == 1:
        lines.insert(at, lines[other])
    elif way == 2:
        del lines[at]
    else:
        numbers = list(re.finditer(rb"\d+", lines[at]))
        if numbers:
            number = chance.choice(numbers)
            near = int(number[0]) + chance.choice((-1, 1)) if len(number[0]) < 25 else 0
            put = str(chance.choice((chance.choice(NUMBERS), near))).encode()
            if chance.random() < 0.1:
                put = chance.choice((b"0" + put, b"", b"-1", b"x", b"9" * 400))
            lines[at] = lines[at][:number.start()] + put + lines[at][number.end():]
    return b"\n".join(lines)


def with_other_payload(chance, policy, capture):
    """A bit of a datagram of the service turned, where the capture can still be read."""
    try:
        return changed_payload(chance, policy, capture)
    except (ValueError, IndexError, KeyError, struct.error):
        return with_other_blocks(chance, capture)


def with_other_line(chance, text):
    """A number of the certificate changed, where it can still be read."""
    try:
        return changed_certificate(chance, text.decode()).encode()
    except (ValueError, IndexError):
        return with_other_lines(chance, text)


def damaged(chance, policy, name, data, is_whole):
    """The file damaged: about half of the captures and certificates that were whole so that they can still be read."""
    if chance.random() < 0.15:
        return with_other_bytes(chance, data)
    readable = chance.random() < 0.6 and is_whole
    if name.startswith("capture"):
        if readable and chance.random() < 0.5:
            return with_other_stamp(chance, data)
        return with_other_payload(chance, policy, data) if readable else with_other_blocks(chance, data)
    return with_other_line(chance, data) if name == "cert" and readable else with_other_lines(chance, data)


class Answer:
    """What the program did with its words."""

    def __init__(self, program, folder, words):
        self.words = words
        began = time.monotonic()
        try:
            ran = subprocess.run([program, *words], cwd=folder, capture_output=True, timeout=LONGEST)
            self.status, self.out, self.told = ran.returncode, ran.stdout, ran.stderr
        except subprocess.TimeoutExpired:
            self.status, self.out, self.told = None, b"", b""
        self.seconds = time.monotonic() - began

    def same(self, other):
        return (self.status, self.out, self.told) == (other.status, other.out, other.told)

    def fault(self):
        """What is wrong with it by itself, or None."""
        if self.status is None or self.seconds > LONGEST:
            return f"took over {LONGEST} seconds"
        if not 0 <= self.status <= 5:
            return f"status {self.status}"
        if self.told.count(b"\n") > 1 or self.told and not self.told.endswith(b"\n"):
            return f"standard error has {self.told[:300]!r}"
        starts = {0: b"turnaudit-report 1\nconforming ", 1: b"turnaudit-report 1\nnot shown\nrule "}
        if self.words[0] == "find":
            starts = {0: b"turnaudit-certificate 1\n"}
        if self.status in starts:
            right = self.out.startswith(starts[self.status]) and self.out.endswith(b"\n") and not self.told
        else:
            right = self.status != 0 and (self.words[0] != "find" or self.status != 1) and not self.out and self.told.startswith(b"turnaudit: ")
        return None if right else f"status {self.status} with {self.out[:200]!r} and {self.told[:200]!r}"


class Stored:
    """A stored case, from which tries are made."""

    def __init__(self, program, folder):
        captures = captures_in(folder)
        self.files = {f"capture{number}": front_of(path.read_bytes()) for number, path in enumerate(captures)}
        self.captures = list(self.files)
        self.policy = read_policy(folder / "policy")
        self.files["policy"] = (folder / "policy").read_bytes()
        if (folder / "creds").exists():
            self.files["creds"] = (folder / "creds").read_bytes()
        with tempfile.TemporaryDirectory() as place:
            place = pathlib.Path(place)
            self.write(place, self.files)
            found = subprocess.run([program, *self.words("find")], cwd=place, capture_output=True)
        self.files["cert"] = found.stdout if found.returncode == 0 else b"turnaudit-certificate 1\nend\n"

    @staticmethod
    def write(place, files):
        for name, data in files.items():
            (place / name).write_bytes(data)

    def words(self, command, *more):
        creds = ["--creds", "creds"] if "creds" in self.files else []
        return [command, "--policy", "policy", *creds, *more, *self.captures]

    def brief_fault_of(self, program, place, statuses, chance):
        """What is wrong with the answer of one command to the files of the folder, and its words, or None. The status is counted."""
        command = chance.choice((["check", "--cert", "cert"], ["find"], ["audit"]))
        answer = Answer(program, place, self.words(*command, *chance.choice(([], ["--workers", "4"]))))
        statuses[f"{answer.words[0]} {answer.status}"] += 1
        return (answer.words, answer.fault()) if answer.fault() else None

    def fault_of(self, program, place, statuses):
        """What is wrong with the answers to the files of the folder, and to which words, or None. The statuses are counted."""
        one = Answer(program, place, self.words("check", "--cert", "cert"))
        many = Answer(program, place, self.words("check", "--cert", "cert", "--workers", "4"))
        found = Answer(program, place, self.words("find"))
        found_by_many = Answer(program, place, self.words("find", "--workers", "4"))
        whole = Answer(program, place, self.words("audit"))
        statuses.update(f"{answer.words[0]} {answer.status}" for answer in (one, found, whole))
        for answer in (one, many, found, found_by_many, whole):
            if answer.fault():
                return answer.words, answer.fault()
        if not one.same(many):
            return many.words, f"4 workers answer {many.out!r} {many.told!r}, one {one.out!r} {one.told!r}"
        if not found.same(found_by_many):
            return found_by_many.words, f"4 workers answer {found_by_many.out!r} {found_by_many.told!r}, one {found.out!r} {found.told!r}"
        if found.status == 0:
            (place / "found").write_bytes(found.out)
            by_parts = Answer(program, place, self.words("check", "--cert", "found"))
            if not whole.same(by_parts):
                return whole.words, f"audit answers {whole.out!r} {whole.told!r}, check by find {by_parts.out!r} {by_parts.told!r}"
        elif whole.status != found.status or whole.told != found.told:
            return whole.words, f"audit answers {whole.told!r}, find {found.told!r}"
        return None


def tried(program, stored, seed, number, keep, brief):
    """What is wrong with the answers to a try, or None; and how often each status came."""
    statuses = collections.Counter()
    chance = random.Random(f"{seed} {number}")
    case = stored[number % len(stored)]
    files = dict(case.files)
    for _ in range(chance.choice((1, 1, 1, 1, 2, 5))):
        name = chance.choice(["cert", "cert", *case.captures, *case.captures, *sorted(files)])
        files[name] = damaged(chance, case.policy, name, files[name], files[name] is case.files[name])
    with tempfile.TemporaryDirectory() as place:
        place = pathlib.Path(place)
        case.write(place, files)
        fault = case.brief_fault_of(program, place, statuses, chance) if brief else case.fault_of(program, place, statuses)
    if fault:
        words, what = fault
        keep = keep / f"{seed}-{number}"
        keep.mkdir(parents=True, exist_ok=True)
        case.write(keep, files)
        (keep / "words").write_text(" ".join(words) + "\n")
        return f"try {number}: {' '.join(words)}: {what}\n    kept in {keep}", statuses
    return None, statuses


def main():
    words = argparse.ArgumentParser(description="Gives turnaudit damaged input.")
    words.add_argument("program", type=pathlib.Path)
    words.add_argument("folders", type=pathlib.Path, nargs="+")
    words.add_argument("--seconds", type=float, default=60)
    words.add_argument("--seed", type=int, default=int(time.time()))
    words.add_argument("--jobs", type=int, default=os.cpu_count() or 1)
    words.add_argument("--keep", type=pathlib.Path, default=pathlib.Path("fuzz-kept"))
    words.add_argument("--brief", action="store_true")
    asked = words.parse_args()
    program = asked.program.resolve()
    stored = [Stored(program, folder) for folder in asked.folders if (folder / "policy").exists() and captures_in(folder)]
    print(f"seed {asked.seed}, {len(stored)} stored cases")
    end, number, wrong, statuses = time.monotonic() + asked.seconds, 0, [], collections.Counter()
    with concurrent.futures.ThreadPoolExecutor(asked.jobs) as pool:
        while time.monotonic() < end and not wrong:
            batch = range(number, number + 16 * asked.jobs)
            for what, counted in pool.map(lambda n: tried(program, stored, asked.seed, n, asked.keep, asked.brief), batch):
                statuses.update(counted)
                if what:
                    wrong.append(what)
            number = batch.stop
    for what in wrong[:10]:
        print(what)
    print("statuses: " + ", ".join(f"{words} {count} times" for words, count in sorted(statuses.items())))
    print(f"{number} tries, {len(wrong)} wrong")
    sys.exit(1 if wrong else 0)


if __name__ == "__main__":
    main()
