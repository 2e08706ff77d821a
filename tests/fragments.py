#!/usr/bin/env python3
"""Runs `turnprep reassemble` on captures made here, and compares what it writes with what is put together here.

    tests/fragments.py PROGRAM TURNAUDIT

Each case is a capture of datagrams, cut into fragments, and either the capture that is due or the line of a refusal. A real capture with
fragments, examples/refused-fragments, has to conform once it is reassembled.
"""

import pathlib
import struct
import subprocess
import sys
import tempfile

TOP = pathlib.Path(__file__).resolve().parent.parent
SECOND = 10**9
# Nanoseconds since 1970.
START = 1_795_000_000 * SECOND


class Order:
    """A byte order, and blocks in it."""

    def __init__(self, sign):
        self.sign = sign

    def block(self, kind, body):
        body += bytes(-len(body) % 4)
        total = struct.pack(self.sign + "I", len(body) + 12)
        return struct.pack(self.sign + "I", kind) + total + body + total

    def head(self, interfaces=1):
        section = self.block(0x0A0D0D0A, struct.pack(self.sign + "IHHq", 0x1A2B3C4D, 1, 0, -1))
        nanoseconds = struct.pack(self.sign + "HHB3xHH", 9, 1, 9, 0, 0)
        return section + interfaces * self.block(1, struct.pack(self.sign + "HHI", 1, 0, 0) + nanoseconds)

    def packet(self, stamp, frame, iface=0, original=None, options=b""):
        size = len(frame) if original is None else original
        front = struct.pack(self.sign + "IIIII", iface, stamp >> 32, stamp & 0xFFFFFFFF, len(frame), size)
        return self.block(6, front + frame + bytes(-len(frame) % 4) + options)


LITTLE, BIG = Order("<"), Order(">")
ETHERNET = bytes.fromhex("020000000001020000000002")


def ip_frame(data, ident=7, offset=0, more=False, link=b"\x08\x00", source=1, protocol=17, trailer=b"", flags=0, checksum=0xABCD):
    field = flags | more << 13 | offset // 8
    header = struct.pack("!BBHHHBBHII", 0x45, 0, 20 + len(data), ident, field, 64, protocol, checksum, 0xC0000200 + source, 0xC6336407)
    return ETHERNET + link + header + data + trailer


def datagram(size, tone=1):
    payload = bytes((tone * i) % 251 for i in range(size))
    return struct.pack("!HHHH", 3478, 40000, 8 + size, 0) + payload


def cut(data, at, **how):
    """The frames of fragments that begin at these places."""
    ends = [*at[1:], len(data)]
    return [ip_frame(data[a:b], offset=a, more=b < len(data), **how) for a, b in zip(at, ends)]


def cases():
    """Name, capture, and what is due: bytes and the counts, or a refusal's line."""
    data, other = datagram(2000), datagram(900, 3)
    one, two = cut(data, [0, 1480]), cut(other, [0, 400, 800], ident=9)
    plain = LITTLE.packet(START, ip_frame(datagram(30)))
    statistics = LITTLE.block(5, struct.pack("<III", 0, 0, 0))
    head = LITTLE.head()
    whole = ip_frame(data)
    yield "two fragments", head + plain + LITTLE.packet(START + 1, one[0]) + statistics + LITTLE.packet(START + 5, one[1]) + plain, (
        head + plain + statistics + LITTLE.packet(START + 5, whole) + plain, 1, 2)
    # datagrams that take turns, and the same identification of another source and on another interface
    third = cut(datagram(64, 5), [0, 40], source=2)
    frames = [(two[0], 0), (one[0], 0), (third[0], 0), (one[0], 1), (two[1], 0), (one[1], 1), (third[1], 0), (two[2], 0), (one[1], 0)]
    due = {5: (whole, 1), 6: (ip_frame(datagram(64, 5), source=2), 0), 7: (ip_frame(other, ident=9), 0), 8: (whole, 0)}
    both = LITTLE.head(2)
    yield "in turns", both + b"".join(LITTLE.packet(START + n, frame, iface) for n, (frame, iface) in enumerate(frames)), (
        both + b"".join(LITTLE.packet(START + n, frame, iface) for n, (frame, iface) in due.items()), 4, 9)
    # big-endian, a VLAN tag, the flag that a router may not fragment, bytes of the link behind the data, an option of the block
    link = b"\x81\x00\x00\x05\x08\x00"
    tagged = cut(data, [0, 1480], link=link, trailer=b"\0\0\0")
    comment = struct.pack(">HH4sHH", 1, 4, b"note", 0, 0)
    yield "big-endian, with a tag", BIG.head() + BIG.packet(START, tagged[0], options=comment) + BIG.packet(START + 2, tagged[1]), (
        BIG.head() + BIG.packet(START + 2, ip_frame(data, link=link)), 1, 2)
    # the same key again, once the datagram is whole
    yield "one behind another", head + b"".join(LITTLE.packet(START + n, frame) for n, frame in enumerate(one + one)), (
        head + LITTLE.packet(START + 1, whole) + LITTLE.packet(START + 3, whole), 2, 4)
    # fragments of other protocols stay, and so does a capture without any
    tcp = ip_frame(b"x" * 64, protocol=6, more=True)
    yield "another protocol", head + LITTLE.packet(START, tcp) + plain, (head + LITTLE.packet(START, tcp) + plain, 0, 0)
    # the longest datagram
    long = datagram(65_507)
    steps = cut(long, list(range(0, len(long), 1480)))
    yield "the longest", head + b"".join(LITTLE.packet(START + n, f) for n, f in enumerate(steps)), (
        head + LITTLE.packet(START + len(steps) - 1, ip_frame(long)), 1, len(steps))
    refused = lambda *frames: head + b"".join(LITTLE.packet(START + n, f) for n, f in enumerate(frames))
    lap = ip_frame(data[1472:], offset=1472)
    yield "overlapping", refused(one[0], lap), "overlapping fragments in capture 0"
    yield "twice the first", refused(one[0], one[0], one[1]), "overlapping fragments in capture 0"
    gap = ip_frame(data[1488:], offset=1488)
    yield "a hole", refused(one[0], gap), "a fragment whose earlier ones are missing in capture 0"
    yield "out of order", refused(one[1], one[0]), "a fragment whose earlier ones are missing in capture 0"
    yield "a hole at the end", refused(one[0], two[0], two[1]), "fragments of 2 datagrams are missing at the end of capture 0"
    late = head + LITTLE.packet(START, one[0]) + LITTLE.packet(START + 30 * SECOND, one[1])
    yield "30 seconds", late, "a fragment 30 seconds behind the first one in capture 0"
    short = head + LITTLE.packet(START, one[0][:800], original=len(one[0]))
    yield "a cut fragment", short, "a cut fragment in capture 0"
    lacking = head + LITTLE.packet(START, one[0][:800])
    yield "a fragment that lacks bytes", lacking, "a cut fragment in capture 0"
    empty = ip_frame(b"", more=True)
    yield "a fragment without data", refused(empty), "a cut fragment in capture 0"
    over = steps[:-1] + [ip_frame(b"y" * 1480, offset=65_120)]
    yield "too many bytes", refused(*over), "fragments of more than 65535 bytes in capture 0"
    many = [ip_frame(b"z" * 8, ident=n, more=True) for n in range(1025)]
    yield "1025 at a time", refused(*many), "fragments of more than 1024 datagrams at a time in capture 0"
    yield "a torn capture", refused(*one)[:-3], "C1 in capture 0: the capture ends inside a block"


def run(program, folder, capture):
    return subprocess.run([program, "reassemble", "-o", folder, capture], capture_output=True, text=True)


def check(program, capture, due):
    """What is wrong with a run on this capture, or nothing."""
    with tempfile.TemporaryDirectory() as folder:
        read = pathlib.Path(folder) / "read.pcapng"
        read.write_bytes(capture)
        made = pathlib.Path(folder) / "made"
        made.mkdir()
        done = run(program, made, read)
        if isinstance(due, str):
            same = done.returncode == 2 and done.stderr == f"turnprep: refused {due}\n"
            return None if same else f"status {done.returncode}: {done.stderr.strip()}"
        text, datagrams, fragments = due
        told = f"turnprep-reassembled 1\ncapture 0 reassembled {datagrams} of {fragments} fragments\n"
        if done.returncode != 0 or done.stdout != told:
            return f"status {done.returncode}: {done.stdout}{done.stderr}"
        return None if (made / "read.pcapng").read_bytes() == text else "writes another capture"


def check_real(program, turnaudit):
    """What is wrong with a real capture: it has one datagram in two fragments."""
    example = TOP / "examples" / "refused-fragments"
    with tempfile.TemporaryDirectory() as folder:
        done = run(program, folder, example / "cap.pcapng")
        if not done.stdout.endswith("capture 0 reassembled 1 of 2 fragments\n"):
            return f"{done.stdout}{done.stderr}"
        words = ["audit", "--policy", example / "policy", "--creds", example / "creds", f"{folder}/cap.pcapng"]
        report = subprocess.run([turnaudit, *words], capture_output=True, text=True)
        same = report.stdout == "turnaudit-report 1\nconforming 10 datagrams 1 lanes\n"
        return None if same else f"{report.stdout}{report.stderr}"


def main():
    program, turnaudit = (pathlib.Path(word).resolve() for word in sys.argv[1:])
    faults, count = [], 1
    for name, capture, due in cases():
        count += 1
        wrong = check(program, capture, due)
        if wrong:
            faults.append(f"{name}: {wrong}")
    wrong = check_real(program, turnaudit)
    if wrong:
        faults.append(f"a real capture: {wrong}")
    for fault in faults:
        print(fault)
    print(f"{count} cases of fragments, {len(faults)} faults")
    return 1 if faults else 0


if __name__ == "__main__":
    sys.exit(main())
