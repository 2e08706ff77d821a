#!/usr/bin/env python3
"""Skews of interfaces, in policies and certificates of version 2: a relayed datagram whose capture's clock is off by 0.4 milliseconds.

    python3 tests/skews.py PROGRAM

The captures, the credentials and the lane are those of examples/made-relay-by-two-clocks. Each pair of a policy and a certificate is judged by `check`; where
it isn't refused, the plain checker has to say the same.
"""

import pathlib
import sys
import tempfile

HERE = pathlib.Path(__file__).resolve().parent
sys.path.insert(0, str(HERE))

from hostile import Tries, refused
from plain.checker import Checker, report
from plain.reading import read_certificate, read_credentials, read_policy, sightings_of

MADE = HERE.parent / "examples" / "made-relay-by-two-clocks"
NAMES = ["client.pcapng", "peer.pcapng"]

ENDPOINTS = "listen 192.0.2.1:3478\nrelay 192.0.2.1:49152-65535\n"
FIRST_POLICY = "turnaudit-policy 1\n" + ENDPOINTS
SECOND_POLICY = "turnaudit-policy 2\n" + ENDPOINTS
FIRST = "turnaudit-certificate 1\n"
SECOND = "turnaudit-certificate 2\n"
LINES = (MADE / "certificate").read_text().removeprefix(FIRST)
AS_FOUND = FIRST + LINES

CONFORMING = (0, "turnaudit-report 1\nconforming 8 datagrams 1 lanes\n")
OUTSIDE = (
    1, "turnaudit-report 1\nnot shown\nrule S4 window\nphase 1 lane 0 event 11 moment 1030100000 tie 0\n"
    "datagram 64.0 192.0.2.1:50000 to 203.0.113.9:7000 5 bytes\n",
)


def by_policy(lines, answer=CONFORMING, heading=SECOND_POLICY):
    return heading + lines, AS_FOUND, answer


def by_certificate(lines, answer=CONFORMING, policy=FIRST_POLICY, heading=SECOND):
    return policy, heading + lines + LINES, answer


def faulty_policy(code, line):
    return refused(code, f"policy line {line}")


def faulty(code, line):
    return refused(code, f"certificate line {line}")


def skews_of(word, count, skew):
    return "".join(f"{word} {interface} {skew}\n" for interface in range(count))


ROWS = [
    ("the interface's skew is wider", *by_policy("skew-us 100\nskew-of 64 500\n")),
    ("before the skew of all", *by_policy("skew-of 64 500\nskew-us 100\n")),
    ("the interface's skew is narrower", *by_policy("skew-of 64 399\n", OUTSIDE)),
    ("just so narrow", *by_policy("skew-of 64 400\n")),
    ("another interface's skew", *by_policy("skew-us 100\nskew-of 0 500\nskew-of 65 500\n", OUTSIDE)),
    ("other interfaces' skews are narrow", *by_policy("skew-of 0 0\nskew-of 65 0\nskew-of 4294967295 0\n")),
    ("policy 2 without a skew of an interface", *by_policy("")),
    ("policy 2 and a narrow skew of all", *by_policy("skew-us 100\n", OUTSIDE)),
    ("1,024 skews", *by_policy("skew-us 100\n" + skews_of("skew-of", 1024, 500))),
    ("1,025 skews", *by_policy(skews_of("skew-of", 1025, 500), faulty_policy("P5", 1028))),
    ("a second one as the 1,025th", *by_policy(skews_of("skew-of", 1024, 500) + "skew-of 3 500\n", faulty_policy("P1", 1028))),
    ("a minute", *by_policy("skew-of 64 60000000\n")),
    ("past a minute", *by_policy("skew-of 64 60000001\n", faulty_policy("P5", 4))),
    ("under heading 1", *by_policy("skew-of 64 500\n", faulty_policy("P1", 4), FIRST_POLICY)),
    ("an interface twice", *by_policy("skew-of 64 500\nskew-of 64 500\n", faulty_policy("P1", 5))),
    ("an interface twice, with a leading zero behind it", *by_policy("skew-of 64 500\nskew-of 64 0500\n", faulty_policy("P1", 5))),
    ("an interface twice, past a minute", *by_policy("skew-of 64 500\nskew-of 64 60000001\n", faulty_policy("P1", 5))),
    ("an interface twice, once with a leading zero", *by_policy("skew-of 64 500\nskew-of 064 500\n", faulty_policy("P2", 5))),
    ("a policy's interface past 32 bits", *by_policy("skew-of 4294967296 500\n", faulty_policy("P2", 4))),
    ("a policy's interface past 32 bits, past a minute", *by_policy("skew-of 4294967296 60000001\n", faulty_policy("P2", 4))),
    ("a policy's skew past 64 bits", *by_policy("skew-of 64 18446744073709551616\n", faulty_policy("P2", 4))),
    ("a policy's skew without a number", *by_policy("skew-of 64\n", faulty_policy("P1", 4))),
    ("a policy's skew with two numbers", *by_policy("skew-of 64 500 500\n", faulty_policy("P1", 4))),
    ("an interface that is no number, beside a leading zero", *by_policy("skew-of x 0500\n", faulty_policy("P1", 4))),
    ("policy 3", *by_policy("", faulty_policy("P1", 1), "turnaudit-policy 3\n" + ENDPOINTS)),
    ("the certificate's skew, just so narrow", *by_certificate("skew 64 400\n")),
    ("the certificate's skew is narrower", *by_certificate("skew 64 399\n", OUTSIDE)),
    ("the certificate's skew is 0", *by_certificate("skew 64 0\n", OUTSIDE)),
    ("two skews", *by_certificate("skew 0 0\nskew 64 400\n")),
    ("skews of other interfaces", *by_certificate("skew 0 0\nskew 63 0\nskew 65 0\nskew 4294967295 0\n")),
    ("the greatest skew", *by_certificate("skew 64 18446744073709551615\n")),
    ("no skew widens the stamp's window", *by_certificate("skew 64 500\n", OUTSIDE, FIRST_POLICY + "skew-us 100\n")),
    ("the policy's skew of the interface, cut", *by_certificate("skew 64 399\n", OUTSIDE, SECOND_POLICY + "skew-us 100\nskew-of 64 500\n")),
    ("the policy's skew of the interface, cut less", *by_certificate("skew 64 400\n", CONFORMING, SECOND_POLICY + "skew-us 100\nskew-of 64 500\n")),
    ("1,024 skews of a certificate", *by_certificate(skews_of("skew", 1024, 400))),
    ("1,025 skews of a certificate", *by_certificate(skews_of("skew", 1025, 400), faulty("T5", 1026))),
    ("a falling one as the 1,025th", *by_certificate(skews_of("skew", 1024, 400) + "skew 1023 400\n", faulty("T8", 1026))),
    ("a falling interface", *by_certificate("skew 64 400\nskew 0 400\n", faulty("T8", 3))),
    ("an interface of a certificate twice", *by_certificate("skew 64 400\nskew 64 400\n", faulty("T8", 3))),
    ("a falling interface with a leading zero", *by_certificate("skew 64 400\nskew 00 400\n", faulty("T3", 3))),
    ("heading 2 and then the lane", *by_certificate("", faulty("T2", 2))),
    ("heading 2 and then end", FIRST_POLICY, SECOND + "end\n", faulty("T2", 2)),
    ("heading 2 alone", FIRST_POLICY, SECOND, faulty("T6", 2)),
    ("heading 2 and a line without LF", FIRST_POLICY, SECOND + "skew 64 400", faulty("T2", 2)),
    ("skews and no end", FIRST_POLICY, SECOND + "skew 64 400\n", faulty("T6", 3)),
    ("skews and then end", FIRST_POLICY, SECOND + "skew 64 400\nend\n",
     (1, "turnaudit-report 1\nnot shown\nrule S1 unplaced\nphase 1 lane 0 event 0 moment 1000000000 tie 0\ndatagram 0.0 198.51.100.7:40000 to 192.0.2.1:3478 28 bytes\n")),
    ("a skew under heading 1", *by_certificate("skew 64 400\n", faulty("T2", 2), heading=FIRST)),
    ("a skew behind the lane", FIRST_POLICY, SECOND + "skew 0 400\n" + LINES.replace("end\n", "skew 64 400\nend\n"), faulty("T2", 16)),
    ("a skew behind the lane line", FIRST_POLICY, SECOND + "skew 0 400\n" + LINES.replace("3478\n", "3478\nskew 64 400\n", 1), faulty("T2", 4)),
    ("a skew behind a drop", FIRST_POLICY, SECOND + "skew 0 400\ndrop 0.0 1000000000 0\nskew 64 400\nend\n", faulty("T2", 4)),
    ("a certificate's interface past 32 bits", *by_certificate("skew 4294967296 400\n", faulty("T3", 2))),
    ("a certificate's skew past 64 bits", *by_certificate("skew 64 18446744073709551616\n", faulty("T3", 2))),
    ("a certificate's skew without a number", *by_certificate("skew 64\n", faulty("T2", 2))),
    ("certificate 3", *by_certificate("skew 64 400\n", faulty("T1", 1), heading="turnaudit-certificate 3\n")),
]


def by_plain(place, captures, certificate):
    """The answer of the plain checker."""
    policy, keys = read_policy(place / "policy"), read_credentials(MADE / "creds")
    said, status = report(Checker(policy, keys, sightings_of(policy, captures), *read_certificate(certificate)))
    return status, said


def found(tries, words):
    """That a policy with a skew of the interface alone lets an order be found, which is written as version 1."""
    tries.write(b"", AS_FOUND, SECOND_POLICY + "skew-us 100\nskew-of 64 500\n")
    ran = tries.run(["audit", *words])
    tries.tell("audit by the interface's skew", (ran.returncode, ran.stdout.decode(), ran.stderr) == (*CONFORMING, b""), ran)
    ran = tries.run(["find", *words])
    tries.tell("find by the interface's skew", ran.returncode == 0 and ran.stdout.startswith(FIRST.encode() + b"lane "), ran)
    (tries.place / "cert").write_bytes(ran.stdout)
    ran = tries.run(["check", "--cert", "cert", *words])
    tries.tell("check what was found", (ran.returncode, ran.stdout.decode(), ran.stderr) == (*CONFORMING, b""), ran)


def main():
    captures = [(MADE / name).read_bytes() for name in NAMES]
    words = ["--policy", "policy", "--creds", str(MADE / "creds"), *(str(MADE / name) for name in NAMES)]
    with tempfile.TemporaryDirectory() as place:
        tries = Tries(pathlib.Path(sys.argv[1]).resolve(), pathlib.Path(place))
        for name, policy, certificate, (status, said) in ROWS:
            tries.write(b"", certificate, policy)
            plain = by_plain(tries.place, captures, certificate) if status < 2 else (status, said)
            if plain != (status, said):
                tries.wrong += 1
                print(f"failed: the plain checker, {name}: {plain}")
            ran = tries.run(["check", "--cert", "cert", *words])
            expected = (status, said.encode(), b"") if status < 2 else (status, b"", said.encode())
            tries.tell(name, (ran.returncode, ran.stdout, ran.stderr) == expected, ran)
        found(tries, words)
    print(f"skews: {tries.right} passed, {tries.wrong} failed")
    sys.exit(1 if tries.wrong else 0)


if __name__ == "__main__":
    main()
