#!/usr/bin/env python3
"""A session whose user is known by SHA-256 (RFC 8489, sections 9.2, 14.6 and 14.12), changed in one place after the other.

    python3 tests/sha256.py PROGRAM

The client is challenged, allocates and deletes. Each capture is judged by `check`, and by `audit`, which has to find an order where there is one.
Keys and integrities are computed here, by Python's hashlib and hmac, and the plain checker has to say the same.
"""

import hashlib
import hmac
import pathlib
import struct
import sys
import tempfile

sys.path.insert(0, str(pathlib.Path(__file__).parent))

from handed_on import BY_USER, COOKIE, FIRST, RELAYED, TRANSPORT, address, lasts, packet
from hostile import POLICY, SECTION, Tries, interface
from plain.checker import Checker, report
from plain.reading import read_certificate, read_credentials, read_policy, sightings_of

MD5 = hashlib.md5(b"user:realm:pass").digest()
SHA256 = hashlib.sha256(b"user:realm:pass").digest()
OF_RFC_4231 = "5bdcc146bf60754e6a042426089575c75a003f089d2739839dec58b964ec3843"

LANE = (
    "lane 198.51.100.7:40000 192.0.2.1:3478\nin 0.0 1000000000 0\nact 0.0 0.1 1000000000 1\nout 0.1 1001000000 0\nin 0.2 1010000000 0\n"
    "act 0.2 0.3 1011000000 0\nout 0.3 1012000000 0\nin 0.4 2000000000 0\nact 0.4 0.5 2000000000 1\nout 0.5 2000400000 0\n"
)
CONFORMING = (0, "turnaudit-report 1\nconforming 6 datagrams 1 lanes\n")


def attribute(code, value):
    return struct.pack(">HH", code, len(value)) + value + bytes(-len(value) % 4)


def algorithm(number, rest=bytes(2)):
    return 0x1D, struct.pack(">H", number) + rest


class Integrity:
    """An integrity attribute over what stands before it, cut to a length, with a bit changed or not, over a length of so many bytes more."""

    def __init__(self, code, key, length=None, wrong=False, more=0):
        self.code, self.key, self.wrong, self.more = code, key, wrong, more
        self.length = (20 if code == 8 else 32) if length is None else length

    def value(self, kind, transaction, body):
        whole = len(body) + 4 + self.length + -self.length % 4 + self.more
        covered = struct.pack(">HHI", kind, whole, COOKIE) + transaction + body
        digest = bytearray(hmac.new(self.key, covered, hashlib.sha1 if self.code == 8 else hashlib.sha256).digest() + bytes(4))
        digest[0] ^= self.wrong
        return bytes(digest[:self.length])


def message(kind, number, parts):
    transaction, body = bytes([number]) * 12, b""
    for part in parts:
        if isinstance(part, Integrity):
            body += attribute(part.code, part.value(kind, transaction, body))
        else:
            body += attribute(*part)
    return struct.pack(">HHI", kind, len(body), COOKIE) + transaction + body


def sha256(key=SHA256, **more):
    return Integrity(0x1C, key, **more)


def sha1(key=SHA256, **more):
    return Integrity(0x08, key, **more)


FINGERPRINT = (0x8028, bytes(4))


def session(asks=None, signs=None, replies=None):
    """Its six datagrams: what the allocation's request ends with (0.2), what its response does (0.3), and what all others do."""
    signs = signs or [sha256()]
    asks = asks or [algorithm(2), *signs]
    replies = replies or signs
    refused = [(0x09, bytes([0, 0, 4, 1]) + b"no"), (0x14, b"realm"), (0x15, b"n1")]
    allocated = [(0x16, address(RELAYED)), lasts(600), (0x20, address(FIRST))]
    payloads = [
        (1_000_000, True, message(0x003, 1, TRANSPORT)),
        (1_001_000, False, message(0x113, 1, refused)),
        (1_010_000, True, message(0x003, 3, TRANSPORT + BY_USER + asks)),
        (1_012_000, False, message(0x103, 3, allocated + replies)),
        (2_000_000, True, message(0x004, 5, [lasts(0)] + BY_USER + [algorithm(2), *signs])),
        (2_000_400, False, message(0x104, 5, [lasts(0), *signs])),
    ]
    return payloads


def conforms(payloads):
    return CONFORMING


def breaks(rule):
    """The allocation's act breaks the rule."""
    return lambda payloads: (1, f"turnaudit-report 1\nnot shown\nrule {rule}\nphase 2 lane 0 event 4 moment 1011000000 tie 0\n"
                             f"datagram 0.2 198.51.100.7:40000 to 192.0.2.1:3478 {len(payloads[2][2])} bytes\n")


BY_NOBODY, NOT_SIGNED = breaks("R2 credentials"), breaks("R18 response integrity")

ROWS = [
    ("SHA-256 alone, of 32 bytes", session(), conforms),
    *[(f"cut to {n}", session(signs=[sha256(length=n)]), conforms) for n in (16, 20, 24, 28)],
    *[(f"a request cut to {n}", session(asks=[algorithm(2), sha256(length=n)]), BY_NOBODY) for n in (0, 4, 12, 15, 18, 31, 36)],
    ("a response cut to 12", session(replies=[sha256(length=12)]), NOT_SIGNED),
    ("both attributes", session(signs=[sha1(), sha256()]), conforms),
    ("MESSAGE-INTEGRITY alone, under the key of 32 bytes", session(signs=[sha1()]), conforms),
    ("MESSAGE-INTEGRITY under MD5's key", session(asks=[algorithm(2), sha1(MD5)]), BY_NOBODY),
    ("a wrong second attribute", session(replies=[sha1(), sha256(wrong=True)]), NOT_SIGNED),
    ("a wrong first attribute beside a right one", session(replies=[sha1(wrong=True), sha256()]), conforms),
    ("MESSAGE-INTEGRITY behind the other one", session(replies=[sha256(), sha1(wrong=True)]), conforms),
    ("a right MESSAGE-INTEGRITY behind a wrong other one", session(replies=[sha256(wrong=True), sha1()]), NOT_SIGNED),
    ("FINGERPRINT behind it", session(signs=[sha256(), FINGERPRINT]), conforms),
    ("the length of the captured message covered", session(asks=[algorithm(2), sha256(more=8), FINGERPRINT]), BY_NOBODY),
    ("no algorithm, and MD5's key", session(asks=[sha256(MD5)], replies=[sha256(MD5)]), conforms),
    ("algorithm 1, and MD5's key", session(asks=[algorithm(1), sha1(MD5)], replies=[sha1(MD5)]), conforms),
    ("algorithm 1, and the other key", session(asks=[algorithm(1), sha256()]), BY_NOBODY),
    *[(f"algorithm {n}", session(asks=[algorithm(n), sha256(key)]), BY_NOBODY) for n in (0, 3, 0x200) for key in (MD5, SHA256)],
    ("any parameters", session(asks=[algorithm(2, b"\xff\x01"), sha256()]), conforms),
    ("an algorithm of 6 bytes is none", session(asks=[algorithm(2, bytes(4)), sha256(MD5)], replies=[sha256(MD5)]), conforms),
    ("an algorithm of 2 bytes is none", session(asks=[algorithm(2, b""), sha256()]), BY_NOBODY),
    ("the first algorithm counts", session(asks=[algorithm(2), algorithm(3), sha256()]), conforms),
    ("an algorithm behind the integrity is none", session(asks=[sha1(MD5), algorithm(2)], replies=[sha1(MD5)]), conforms),
    ("the response's algorithm isn't read", session(replies=[algorithm(1), sha256()]), conforms),
    ("a response under the key that it names itself", session(replies=[algorithm(1), sha256(MD5)]), NOT_SIGNED),
]


def main():
    if hmac.new(b"Jefe", b"what do ya want for nothing?", hashlib.sha256).hexdigest() != OF_RFC_4231:
        sys.exit("failed: another HMAC")
    with tempfile.TemporaryDirectory() as place:
        tries = Tries(pathlib.Path(sys.argv[1]).resolve(), pathlib.Path(place))
        (tries.place / "creds").write_text("user\trealm\tpass\n")
        inputs = ["--policy", "policy", "--creds", "creds"]
        for name, payloads, answer in ROWS:
            status, said = answer(payloads)
            capture = SECTION + interface() + b"".join(packet(stamp, FIRST, up, payload) for stamp, up, payload in payloads)
            certificate = f"turnaudit-certificate 1\n{LANE}end\n"
            tries.write(capture, certificate, POLICY)
            policy, keys = read_policy(tries.place / "policy"), read_credentials(tries.place / "creds")
            plain = report(Checker(policy, keys, sightings_of(policy, [capture]), *read_certificate(certificate)))
            if plain != (said, status):
                tries.wrong += 1
                print(f"failed: the plain checker, {name}: {plain}")
            ran = tries.run(["check", *inputs, "--cert", "cert", "capture"])
            tries.tell(f"check, {name}", (ran.returncode, ran.stdout, ran.stderr) == (status, said.encode(), b""), ran)
            ran = tries.run(["audit", *inputs, "capture"])
            tries.tell(f"audit, {name}", ran.returncode == status and (status or ran.stdout == said.encode()), ran)
    print(f"SHA-256: {tries.right} passed, {tries.wrong} failed")
    sys.exit(1 if tries.wrong else 0)


if __name__ == "__main__":
    main()
