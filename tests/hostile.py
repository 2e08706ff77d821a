#!/usr/bin/env python3
"""Input made to break the reader, each at the edge of what is refused, and files that fail in the middle.

    python3 tests/hostile.py PROGRAM

Each line of EDGES is a capture of a Binding request and its success, its certificate or its policy, changed in one place, with the
status and the answer that the formats ask for. Then every front of the capture is audited; standard output takes fewer and fewer
bytes of each report and of a certificate; and each read, write and opening of a file fails in turn, of whole files and of such that give
one byte at a time, and the system gives no random bytes (tests/failing_io.c; needs gcc).
"""

import pathlib
import resource
import shutil
import struct
import subprocess
import sys
import tempfile

HERE = pathlib.Path(__file__).resolve().parent

SECTION = bytes.fromhex("0a0d0d0a1c0000004d3c2b1a01000000ffffffffffffffff1c000000")
POLICY = "turnaudit-policy 1\nlisten 192.0.2.1:3478\nrelay 192.0.2.1:49152-65535\n"
LANE = "lane 198.51.100.7:40000 192.0.2.1:3478\n"
EVENTS = "in 0.0 1000000 0\nact 0.0 0.1 1000000 1\nout 0.1 1500000 0\n"
CERTIFICATE = f"turnaudit-certificate 1\n{LANE}{EVENTS}end\n"
EMPTY = "turnaudit-certificate 1\nend\n"
SECOND_POLICY = POLICY.replace("turnaudit-policy 1", "turnaudit-policy 2")
CONFORMING = "turnaudit-report 1\nconforming 2 datagrams 1 lanes\n"
NOT_SHOWN = "turnaudit-report 1\nnot shown\n"
NO_RANDOM = b"turnaudit: the system gives no random bytes\n"
OTHER_ADDRESS = (
    NOT_SHOWN + "rule R17 mapped address\nphase 2 lane 0 event 1 moment 1000000 tie 1\ndatagram 0.0 198.51.100.7:40000 to 192.0.2.1:3478 20 bytes\n"
)

REQUEST = bytes.fromhex("00010000 2112a442 000102030405060708090a0b")
SUCCESS = bytes.fromhex("0101000c 2112a442 000102030405060708090a0b 0020 0008 0001 bd52 e721c045")


def block(kind, body):
    length = struct.pack("<I", len(body) + 12)
    return struct.pack("<I", kind) + length + body + length


def interface(options=b""):
    return block(1, bytes.fromhex("0100000000000400") + options)


def option(code, value):
    return struct.pack("<HH", code, len(value)) + value + bytes(-len(value) % 4)


def frame(up, payload):
    ends = [bytes.fromhex("c6336407"), bytes.fromhex("c0000201")]
    ports = [40000, 3478]
    if not up:
        ends.reverse()
        ports.reverse()
    udp = struct.pack(">HHHH", *ports, 8 + len(payload), 0) + payload
    internet = bytes.fromhex("4500") + struct.pack(">H", 20 + len(udp)) + bytes.fromhex("0000000040110000") + b"".join(ends)
    ethernet = bytes.fromhex("020000000002020000000001" if not up else "020000000001020000000002") + b"\x08\x00"
    return ethernet + internet + udp


def packet(ticks, data, options=b"", captured=None):
    head = struct.pack("<IIIII", 0, ticks >> 32, ticks % 2**32, len(data) if captured is None else captured, len(data))
    return block(6, head + data + bytes(-len(data) % 4) + options)


ASKED, ANSWERED = packet(1000, frame(True, REQUEST)), packet(1500, frame(False, SUCCESS))
CAPTURE = SECTION + interface() + ASKED + ANSWERED
# The success tells another port.
BROKEN = SECTION + interface() + ASKED + packet(1500, frame(False, SUCCESS.replace(bytes.fromhex("bd52"), bytes.fromhex("bd53"))))
THREE_BYTES = frame(True, b"abc")


def with_length(number):
    """The capture with this total length in the front of its interface block."""
    return CAPTURE[:32] + struct.pack("<I", number) + CAPTURE[36:]


def clocked(ticks, options=b""):
    """A capture of three bytes to the server, by a clock of these options."""
    return SECTION + interface(options) + packet(ticks, THREE_BYTES)


def asked_by(length, rest):
    """The capture whose request has this length and these bytes behind its header."""
    request = REQUEST[:2] + struct.pack(">H", length) + REQUEST[4:] + rest
    return SECTION + interface() + packet(1000, frame(True, request)) + ANSWERED


def not_an_answer(size):
    """What is said of a request of this size that is no message."""
    return 1, NOT_SHOWN + f"rule R1 not an answer\nphase 2 lane 0 event 1 moment 1000000 tie 1\ndatagram 0.0 198.51.100.7:40000 to 192.0.2.1:3478 {size} bytes\n"


def skewed(skew):
    """The certificate with the skew of an interface."""
    return CERTIFICATE.replace("turnaudit-certificate 1\n", f"turnaudit-certificate 2\nskew {skew}\n")


def refused(code, what="capture 0"):
    return 2, f"turnaudit: refused {code} in {what}\n"


# What is tried, the capture, the certificate, the policy, and the status with what is said.
EDGES = [
    ("as it stands", CAPTURE, CERTIFICATE, POLICY, (0, CONFORMING)),
    ("total length 0xFFFFFFFF", with_length(2**32 - 1), CERTIFICATE, POLICY, refused("C3")),
    ("total length 16 of an interface", with_length(16), CERTIFICATE, POLICY, refused("C3")),
    ("total length 0xFFFFFFFC", with_length(2**32 - 4), CERTIFICATE, POLICY, refused("C12")),
    ("total length 16,777,220", with_length(16_777_220), CERTIFICATE, POLICY, refused("C12")),
    ("total length 16,777,216, the rest missing", with_length(16_777_216), CERTIFICATE, POLICY, refused("C1")),
    ("packet block of 28", CAPTURE[:52] + struct.pack("<I", 28) + CAPTURE[56:], CERTIFICATE, POLICY, refused("C3")),
    ("captured length 0xFFFFFFFF", SECTION + interface() + packet(1000, frame(True, REQUEST), captured=2**32 - 1), EMPTY, POLICY, refused("C3")),
    ("drop count of 4 bytes", SECTION + interface() + packet(1000, frame(True, REQUEST), option(4, bytes(4))), EMPTY, POLICY, refused("C3")),
    ("drop count above 0", SECTION + interface() + packet(1000, frame(True, REQUEST), option(4, b"\1" + bytes(7))), EMPTY, POLICY, refused("C11")),
    ("resolution of a power of two", clocked(1, option(9, b"\x89")), EMPTY, POLICY, refused("C8")),
    ("resolution past nanoseconds", clocked(1, option(9, b"\x0a")), EMPTY, POLICY, refused("C8")),
    ("greatest stamp in microseconds", clocked(2**64 - 1), EMPTY, POLICY, refused("C9")),
    ("greatest stamp in nanoseconds", clocked(2**64 - 1, option(9, b"\x09")), "turnaudit-certificate 1\ndrop 0.0 18446744073709551615 0\nend\n", POLICY,
     (0, "turnaudit-report 1\nconforming 1 datagrams 0 lanes\n")),
    ("stamp 0 with offset -1", clocked(0, option(14, b"\xff" * 8)), EMPTY, POLICY, refused("C9")),
    ("three bytes dropped", clocked(1000), "turnaudit-certificate 1\ndrop 0.0 1000000 0\nend\n", POLICY, (0, "turnaudit-report 1\nconforming 1 datagrams 0 lanes\n")),
    ("a request with an attribute", asked_by(8, bytes.fromhex("8022000461626364")), CERTIFICATE, POLICY, (0, CONFORMING)),
    ("attribute of length 0xFFFF", asked_by(8, bytes.fromhex("8022ffff61626364")), CERTIFICATE, POLICY, not_an_answer(28)),
    ("message length 6", asked_by(6, bytes.fromhex("802200026162")), CERTIFICATE, POLICY, not_an_answer(26)),
    ("message length past the payload", asked_by(4, b""), CERTIFICATE, POLICY, not_an_answer(20)),
    ("greatest moment and tie", CAPTURE, CERTIFICATE.replace("0.0 1000000 0", "0.0 18446744073709551615 4294967295"), POLICY,
     (1, NOT_SHOWN + "rule S6 lane order\nphase 1 lane 0 event 1 moment 1000000 tie 1\ndatagram 0.0 198.51.100.7:40000 to 192.0.2.1:3478 20 bytes\n")),
    ("moment past 64 bits", CAPTURE, CERTIFICATE.replace("0.0 1000000 0", "0.0 18446744073709551616 0"), POLICY, refused("T3", "certificate line 3")),
    ("tie past 32 bits", CAPTURE, CERTIFICATE.replace("0.0 1000000 0", "0.0 1000000 4294967296"), POLICY, refused("T3", "certificate line 3")),
    ("client 198.51.100.256", CAPTURE, CERTIFICATE.replace("100.7:40000", "100.256:1"), POLICY, refused("T3", "certificate line 2")),
    ("greatest index", CAPTURE, CERTIFICATE.replace("in 0.0", "in 0.4294967295"), POLICY,
     (1, NOT_SHOWN + "rule S3 stranger\nphase 1 lane 0 event 0 moment 1000000 tie 0\ndatagram 0.4294967295 unknown\n")),
    ("skew past a minute", CAPTURE, CERTIFICATE, POLICY + "skew-us 60000001\n", refused("P5", "policy line 4")),
    ("skew past 64 bits", CAPTURE, CERTIFICATE, POLICY + "skew-us 18446744073709551616\n", refused("P2", "policy line 4")),
    ("skew no number", CAPTURE, CERTIFICATE, POLICY + "skew-us x\n", refused("P1", "policy line 4")),
    ("greatest interface", CAPTURE, CERTIFICATE, SECOND_POLICY + "skew-of 4294967295 60000000\n", (0, CONFORMING)),
    ("interface past 32 bits", CAPTURE, CERTIFICATE, SECOND_POLICY + "skew-of 4294967296 0\n", refused("P2", "policy line 4")),
    ("interface's skew past a minute", CAPTURE, CERTIFICATE, SECOND_POLICY + "skew-of 0 60000001\n", refused("P5", "policy line 4")),
    ("interface's skew past 64 bits", CAPTURE, CERTIFICATE, SECOND_POLICY + "skew-of 0 18446744073709551616\n", refused("P2", "policy line 4")),
    ("greatest skew of a certificate", CAPTURE, skewed("0 18446744073709551615"), POLICY, (0, CONFORMING)),
    ("greatest interface of a certificate", CAPTURE, skewed("4294967295 0"), POLICY, (0, CONFORMING)),
    ("interface of a certificate past 32 bits", CAPTURE, skewed("4294967296 0"), POLICY, refused("T3", "certificate line 2")),
    ("skew of a certificate past 64 bits", CAPTURE, skewed("0 18446744073709551616"), POLICY, refused("T3", "certificate line 2")),
]


class Tries:
    """A folder with the files of a run, and how many runs answered as they should."""

    def __init__(self, program, place):
        self.program, self.place = program, place
        self.right, self.wrong = 0, 0

    def write(self, capture, certificate, policy):
        (self.place / "capture").write_bytes(capture)
        (self.place / "cert").write_text(certificate)
        (self.place / "policy").write_text(policy)

    def run(self, words, **more):
        return subprocess.run([self.program, *words], cwd=self.place, timeout=60, **{"capture_output": True, **more})

    def check(self, **more):
        return self.run(["check", "--policy", "policy", "--cert", "cert", "capture"], **more)

    def has_room(self, words, room, whole, answer):
        """That with room for so many bytes these are the front of the whole text, with this status and line."""
        # The limit holds for the program alone; SIGXFSZ is ignored as this process ignores it, so that the write fails.
        with open(self.place / "out", "wb") as out:
            ran = self.run(words, capture_output=False, stdout=out, stderr=subprocess.PIPE, restore_signals=False,
                           preexec_fn=lambda: resource.setrlimit(resource.RLIMIT_FSIZE, (room, room)))
        written = (self.place / "out").read_bytes()
        self.tell(f"{words[0]}, room for {room} of {len(whole)} bytes", written == whole[:room] and (ran.returncode, ran.stderr) == answer, ran)

    def tell(self, name, right, ran):
        if right:
            self.right += 1
        else:
            self.wrong += 1
            print(f"failed: {name}: status {ran.returncode}, {ran.stdout!r} {ran.stderr!r}")


def edges(tries):
    for name, capture, certificate, policy, (status, said) in EDGES:
        tries.write(capture, certificate, policy)
        ran = tries.check()
        expected = (status, said.encode(), b"") if status < 2 else (status, b"", said.encode())
        tries.tell(name, (ran.returncode, ran.stdout, ran.stderr) == expected, ran)


def fronts(tries):
    """A front that ends with a block is whole, one that ends in a block is refused, and so is none at all."""
    whole = {28: 0, 48: 0, 144: 1, 252: 2}
    for length in range(len(CAPTURE) + 1):
        tries.write(CAPTURE[:length], CERTIFICATE, POLICY)
        ran = tries.run(["audit", "--policy", "policy", "capture"])
        if length in whole:
            right = ran.returncode == 0 and ran.stdout.startswith(f"turnaudit-report 1\nconforming {whole[length]} datagrams ".encode())
        else:
            right = (ran.returncode, ran.stderr) == (2, b"turnaudit: refused C5 in capture 0\n" if length == 0 else b"turnaudit: refused C1 in capture 0\n")
        tries.tell(f"the first {length} bytes", right, ran)


def little_room(tries):
    """Standard output is a file that takes so many bytes and no more: of both reports, and of a certificate."""
    check = ["check", "--policy", "policy", "--cert", "cert", "capture"]
    found = ["find", "--policy", "policy", "capture"]
    for words, capture, full, report in [(check, CAPTURE, 0, CONFORMING), (check, BROKEN, 1, OTHER_ADDRESS), (found, CAPTURE, 0, None)]:
        tries.write(capture, CERTIFICATE, POLICY)
        whole = tries.run(words).stdout if report is None else report.encode()
        tries.has_room(words, len(whole), whole, (full, b""))
        for room in range(len(whole)):
            tries.has_room(words, room, whole, (4, b"turnaudit: write failed\n"))


def failing_files(tries):
    """Each call on a file fails in turn, or gives one byte."""
    if shutil.which("gcc") is None:
        print("hostile: no gcc, so no call on a file fails")
        return
    library = tries.place / "failing_io.so"
    subprocess.run(["gcc", "-shared", "-fPIC", "-O1", "-o", library, HERE / "failing_io.c", "-ldl"], check=True)
    tries.write(CAPTURE, CERTIFICATE, POLICY)
    check = ["check", "--policy", "policy", "--cert", "cert", "capture"]
    for words in (check, [*check, "--workers", "2"], ["audit", "--policy", "policy", "capture"], ["find", "--policy", "policy", "capture"], ["find", "--workers", "4", "--policy", "policy", "capture"], ["live", "--policy", "policy", "capture"]):
        whole = tries.run(words).stdout
        by_one_byte = tries.run(words, env={"LD_PRELOAD": str(library), "SHORT": "1"})
        tries.tell(f"{words[0]}, one byte at a time", (by_one_byte.returncode, by_one_byte.stdout, by_one_byte.stderr) == (0, whole, b""), by_one_byte)
        each_call_fails(tries, words, whole, {"LD_PRELOAD": str(library)})
    no_random = tries.run(check, env={"LD_PRELOAD": str(library), "NO_RANDOM": "1"})
    tries.tell("no random bytes", (no_random.returncode, no_random.stdout, no_random.stderr) == (4, b"", NO_RANDOM), no_random)
    # Every piece of every file is one byte.
    each_call_fails(tries, check, CONFORMING.encode(), {"LD_PRELOAD": str(library), "SHORT": "1"})


def each_call_fails(tries, words, whole, environment):
    number = 0
    while True:
        number += 1
        ran = tries.run(words, env={**environment, "FAIL_AT": str(number)})
        if ran.returncode == 0:
            tries.tell(f"{words[0]}, no call failed", ran.stdout == whole and number > 6, ran)
            return
        # What can't be read gives no report, and what can't be written a front of it. Where the line itself can't be written, it is missing.
        right = (not ran.stdout and ran.stderr == b"turnaudit: read failed\n") or (
            whole.startswith(ran.stdout) and ran.stderr in (b"turnaudit: write failed\n", b"")
        )
        tries.tell(f"{words[0]}, call {number} fails", ran.returncode == 4 and right, ran)


def main():
    program = pathlib.Path(sys.argv[1]).resolve()
    with tempfile.TemporaryDirectory() as place:
        tries = Tries(program, pathlib.Path(place))
        edges(tries)
        fronts(tries)
        little_room(tries)
        failing_files(tries)
    print(f"hostile: {tries.right} passed, {tries.wrong} failed")
    sys.exit(1 if tries.wrong else 0)


if __name__ == "__main__":
    main()
