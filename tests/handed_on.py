#!/usr/bin/env python3
"""One client gives its relayed address up, another is given it in the same moment: what counts is which act comes first.

    python3 tests/handed_on.py PROGRAM

The capture is built here and held against the digest of the stored one. Of two acts at one moment the tie decides, and of two at one tie
the number of the lane: `check` is asked in both orders of the lanes, and with the second client's act at an earlier tie. `audit` has to find an order.
"""

import hashlib
import hmac
import pathlib
import struct
import sys
import tempfile

sys.path.insert(0, str(pathlib.Path(__file__).parent))

from hostile import POLICY, SECTION, Tries, block, interface

COOKIE = 0x2112A442
KEY = hashlib.md5(b"user:realm:pass").digest()
FIRST, SECOND, SERVER = (0xC6336407, 40000), (0xC6336408, 40001), (0xC0000201, 3478)
RELAYED = (0xC0000201, 50000)
BY_USER = [(0x06, b"user"), (0x14, b"realm"), (0x15, b"n1")]
TRANSPORT = [(0x19, bytes([17, 0, 0, 0]))]
DIGEST = "e51abda2ab5c678ed5416acf0f95cb29308ec380"

GIVES_UP = (
    "lane 198.51.100.7:40000 192.0.2.1:3478\nin 0.0 1000000000 0\nact 0.0 0.1 1000000000 1\nout 0.1 1001000000 0\n"
    "in 0.2 1010000000 0\nact 0.2 0.3 1011000000 0\nout 0.3 1012000000 0\nin 0.4 1999800000 0\nact 0.4 0.6 2000000000 5\nout 0.6 2000400000 0\n"
)
CONFORMING = (0, "turnaudit-report 1\nconforming 8 datagrams 2 lanes\n")


def is_given(tie):
    """The lane of the second client, whose act is at this tie."""
    return f"lane 198.51.100.8:40001 192.0.2.1:3478\nin 0.5 1999900000 0\nact 0.5 0.7 2000000000 {tie}\nout 0.7 2000500000 0\n"


def held(lane, tie):
    """That the second client's act is refused, whose lane has that number."""
    return 1, (
        f"turnaudit-report 1\nnot shown\nrule R22 address held\nphase 3 lane {lane} event 1 moment 2000000000 tie {tie}\n"
        "datagram 0.5 198.51.100.8:40001 to 192.0.2.1:3478 80 bytes\n"
    )


# The lanes in their order, and the answer.
ORDERS = [
    ("the lane that gives up first", GIVES_UP + is_given(5), CONFORMING),
    ("the lane that is given first", is_given(5) + GIVES_UP, held(0, 5)),
    ("an earlier tie, second lane", GIVES_UP + is_given(4), held(1, 4)),
    ("an earlier tie, first lane", is_given(4) + GIVES_UP, held(0, 4)),
]


def message(kind, number, attributes, key=None):
    transaction = bytes([number]) * 12
    body = b"".join(struct.pack(">HH", code, len(value)) + value + bytes(-len(value) % 4) for code, value in attributes)
    if key:
        covered = struct.pack(">HHI", kind, len(body) + 24, COOKIE) + transaction + body
        body += struct.pack(">HH", 8, 20) + hmac.new(key, covered, hashlib.sha1).digest()
    return struct.pack(">HHI", kind, len(body), COOKIE) + transaction + body


def address(end):
    return struct.pack(">BBHI", 0, 1, end[1] ^ COOKIE >> 16, end[0] ^ COOKIE)


def lasts(seconds):
    return 0x0D, struct.pack(">I", seconds)


def allocated(number, client):
    return message(0x103, number, [(0x16, address(RELAYED)), lasts(600), (0x20, address(client))], KEY)


def packet(stamp, client, up, payload):
    source, target = (client, SERVER) if up else (SERVER, client)
    udp = struct.pack(">HHHH", source[1], target[1], 8 + len(payload), 0) + payload
    internet = struct.pack(">BBHHHBBHII", 0x45, 0, 20 + len(udp), 0, 0, 64, 17, 0, source[0], target[0])
    ends = bytes.fromhex("020000000002020000000001" if not up else "020000000001020000000002")
    frame = ends + b"\x08\x00" + internet + udp
    head = struct.pack("<IIIII", 0, stamp >> 32, stamp % 2**32, len(frame), len(frame))
    return block(6, head + frame + bytes(-len(frame) % 4))


def capture():
    """The first client is challenged, allocates and deletes; the second allocates before the deletion is answered."""
    refused = message(0x113, 1, [(0x09, bytes([0, 0, 4, 1]) + b"no"), (0x14, b"realm"), (0x15, b"n1")])
    return SECTION + interface() + b"".join([
        packet(1_000_000, FIRST, True, message(0x003, 1, TRANSPORT)),
        packet(1_001_000, FIRST, False, refused),
        packet(1_010_000, FIRST, True, message(0x003, 3, TRANSPORT + BY_USER, KEY)),
        packet(1_012_000, FIRST, False, allocated(3, FIRST)),
        packet(2_000_000, FIRST, True, message(0x004, 5, [lasts(0)] + BY_USER, KEY)),
        packet(2_000_100, SECOND, True, message(0x003, 6, TRANSPORT + BY_USER, KEY)),
        packet(2_000_400, FIRST, False, message(0x104, 5, [lasts(0)], KEY)),
        packet(2_000_500, SECOND, False, allocated(6, SECOND)),
    ])


def main():
    seen = capture()
    if hmac.new(b"capture", seen, hashlib.sha1).hexdigest() != DIGEST:
        sys.exit("failed: the capture is another one")
    with tempfile.TemporaryDirectory() as place:
        tries = Tries(pathlib.Path(sys.argv[1]).resolve(), pathlib.Path(place))
        (tries.place / "creds").write_text("user\trealm\tpass\n")
        inputs = ["--policy", "policy", "--creds", "creds"]
        for name, lanes, (status, report) in ORDERS:
            tries.write(seen, f"turnaudit-certificate 1\n{lanes}end\n", POLICY)
            for workers in ("1", "2"):
                ran = tries.run(["check", *inputs, "--cert", "cert", "--workers", workers, "capture"])
                tries.tell(f"{name}, {workers} workers", (ran.returncode, ran.stdout, ran.stderr) == (status, report.encode(), b""), ran)
        ran = tries.run(["audit", *inputs, "capture"])
        tries.tell("audit", (ran.returncode, ran.stdout) == (CONFORMING[0], CONFORMING[1].encode()), ran)
    print(f"handed on: {tries.right} passed, {tries.wrong} failed")
    sys.exit(1 if tries.wrong else 0)


if __name__ == "__main__":
    main()
