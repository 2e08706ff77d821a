#!/usr/bin/env python3
"""refusals.py PROGRAM: tries the examples of docs/REFUSALS.md, and the words that are no request.

Each row of that page begins with the line that the program has to print, and has an example: a text, or the name of
an input that `MADE` below makes. Standard output has to be empty, and the status 2. It needs no other program.
"""

import gzip
import re
import struct
import subprocess
import sys
import tempfile
from pathlib import Path

TOP = Path(__file__).resolve().parent.parent
SECONDS = 60

POLICY = b"turnaudit-policy 1\nlisten 192.0.2.1:3478\nrelay 192.0.2.1:49152-65535\n"
CLIENT, SERVER = bytes([198, 51, 100, 7]), bytes([192, 0, 2, 1])

ALL = [f"{letter}{number}" for letter, last in (("P", 5), ("K", 4), ("T", 6), ("C", 12), ("V", 4)) for number in range(1, last + 1)]


def block(kind, body):
    body += bytes(-len(body) % 4)
    length = struct.pack("<I", len(body) + 12)
    return struct.pack("<I", kind) + length + body + length


def option(code, value):
    return struct.pack("<HH", code, len(value)) + value + bytes(-len(value) % 4)


def section(magic=0x1A2B3C4D, major=1):
    return block(0x0A0D0D0A, struct.pack("<IHHq", magic, major, 0, -1))


def interface(link=1, options=b""):
    return block(1, struct.pack("<HHI", link, 0, 0) + options)


def statistics(options):
    return block(5, struct.pack("<III", 0, 0, 0) + options)


def packet(frame, kept=None, number=0, ticks=1000):
    kept = len(frame) if kept is None else kept
    head = struct.pack("<IIIII", number, ticks >> 32, ticks & 0xFFFFFFFF, kept, len(frame))
    return block(6, head + frame[:kept])


def frame(source, port, to, to_port, payload=b"hello", fragment=0):
    udp = struct.pack(">HHHH", port, to_port, 8 + len(payload), 0) + payload
    ip = struct.pack(">BBHHHBBH", 0x45, 0, 20 + len(udp), 0, fragment, 64, 17, 0) + source + to
    return bytes(12) + b"\x08\x00" + ip + udp


def capture(*blocks):
    return b"".join((section(), interface()) + blocks)


DATAGRAM = frame(CLIENT, 40000, SERVER, 3478)

# What can't be written down on the page. Of several captures, as many as the list has.
MADE = {
    "65-listen-lines.txt": b"turnaudit-policy 1\n" + b"".join(b"listen 192.0.2.1:%d\n" % port for port in range(1, 66)),
    "password-of-509.txt": b"user\trealm\t" + b"p" * 509 + b"\n",
    "65537-lanes.txt": b"turnaudit-certificate 1\n" + b"".join(b"lane 10.%d.%d.%d:1 192.0.2.1:3478\n" % (n >> 16, n >> 8 & 255, n & 255) for n in range(65537)) + b"end\n",
    "lane-twice.txt": b"turnaudit-certificate 1\n" + b"lane 198.51.100.7:40000 192.0.2.1:3478\n" * 2 + b"end\n",
    "torn.pcapng": [capture(packet(DATAGRAM))[:-4]],
    "magic.pcapng": [section(magic=0)],
    "length.pcapng": [section() + struct.pack("<II", 1, 30) + bytes(22)],
    "version.pcapng": [section(major=2)],
    "classic.pcapng": [struct.pack("<IHHiIII", 0xA1B2C3D4, 2, 4, 0, 0, 262144, 1)],
    "gzip.pcapng": [gzip.compress(capture(packet(DATAGRAM)))],
    "empty.pcapng": [b""],
    "interface.pcapng": [capture(packet(DATAGRAM, number=1))],
    "any.pcapng": [section() + interface(link=113)],
    "resolution.pcapng": [section() + interface(options=option(9, b"\x89"))],
    "stamp.pcapng": [capture(packet(DATAGRAM, ticks=2**64 - 1))],
    "simple.pcapng": [capture(block(3, struct.pack("<I", len(DATAGRAM)) + DATAGRAM))],
    "drops.pcapng": [capture(statistics(option(5, struct.pack("<Q", 1))))],
    "interfaces.pcapng": [section() + interface() * 65],
    "fragment.pcapng": [capture(packet(frame(CLIENT, 40000, SERVER, 3478, fragment=0x2000)))],
    "hairpin.pcapng": [capture(packet(frame(SERVER, 50000, SERVER, 3478)))],
    "cut.pcapng": [capture(packet(DATAGRAM, kept=40))],
    "17-files.pcapng": [section()] * 17,
}

failures = []
tried = 0


def expect(name, fine):
    global tried
    tried += 1
    if not fine:
        failures.append(name)


def spelled(text):
    """The bytes that a text of the page stands for."""
    return text.encode("latin-1").decode("unicode_escape").encode("latin-1")


def answer(program, words, **streams):
    return subprocess.run([program, *map(str, words)], stdout=subprocess.PIPE, stderr=subprocess.PIPE, timeout=SECONDS, **streams)


def words_for(folder, kind, content):
    """The words that give the content to the program as an input of that kind."""
    named = {"policy": folder / "policy", "credentials": folder / "creds", "certificate": folder / "cert"}
    named["policy"].write_bytes(POLICY)
    names = []
    for number, one in enumerate(content if kind == "capture" else [capture()]):
        names.append(folder / f"capture{number}")
        names[-1].write_bytes(one)
    if kind != "capture":
        named[kind].write_bytes(content)
    words = ["check" if kind == "certificate" else "audit", "--policy", named["policy"]]
    if kind == "credentials":
        words += ["--creds", named["credentials"]]
    if kind == "certificate":
        words += ["--cert", named["certificate"]]
    return words + names


def try_page(program, folder):
    """Each example of the page; every refusal has one."""
    seen = set()
    for row in (TOP / "docs" / "REFUSALS.md").read_text().splitlines():
        parts = re.match(r"\| `(refused (\w+) in (\w+)[^`]*)` \| `([^`]*)`", row)
        if not parts:
            continue
        line, code, kind, example = parts.groups()
        content = MADE[example] if example in MADE else spelled(example)
        run = answer(program, words_for(folder, kind, content))
        expect(f"{line}: {example}", (run.returncode, run.stdout, run.stderr.decode()) == (2, b"", f"turnaudit: {line}\n"))
        seen.add(code)
    for code in ALL:
        expect(f"{code} has no example", code in seen)


def try_endless(program, folder):
    """Inputs without an end are refused at their beginning, as lines of too many bytes."""
    for kind, line in (("policy", "P1 in policy line 1"), ("credentials", "K1 in credentials line 1"), ("certificate", "T1 in certificate line 1")):
        words = words_for(folder, kind, b"")
        words = ["/dev/zero" if word == folder / {"policy": "policy", "credentials": "creds", "certificate": "cert"}[kind] else word for word in words]
        run = answer(program, words)
        expect(f"an endless {kind}", (run.returncode, run.stderr.decode()) == (2, f"turnaudit: refused {line}\n"))


def try_files(program, folder):
    """Files that can't be read, an answer that can't be written, and a capture by a pipe."""
    fine = words_for(folder, "capture", [capture()])
    for word in (folder / "nothing", folder):
        run = answer(program, fine[:-1] + [word])
        expect(f"read failed: {word}", (run.returncode, run.stderr) == (4, b"turnaudit: read failed\n"))
    with open("/dev/full", "wb") as full:
        run = subprocess.run([program, *map(str, fine)], stdout=full, stderr=subprocess.PIPE, timeout=SECONDS)
    expect("write failed", (run.returncode, run.stderr) == (4, b"turnaudit: write failed\n"))
    run = answer(program, fine[:-1] + ["/dev/stdin"], input=capture())
    expect("a capture by a pipe", (run.returncode, run.stdout) == (0, b"turnaudit-report 1\nconforming 0 datagrams 0 lanes\n"))


def try_words(program):
    """No words tell the commands as help does; the release is one line."""
    none, help_ = answer(program, []), answer(program, ["--help"])
    expect("no words", (none.returncode, none.stdout, help_.returncode, help_.stderr) == (5, b"", 0, b"") and none.stderr == help_.stdout != b"")
    release = answer(program, ["--version"])
    expect("--version", release.returncode == 0 and re.fullmatch(rb"turnaudit [0-9.]+, proved with [^\n]+\n", release.stdout) is not None)


def main():
    program = str(Path(sys.argv[1]).resolve())
    with tempfile.TemporaryDirectory() as scratch:
        folder = Path(scratch)
        try_page(program, folder)
        try_endless(program, folder)
        try_files(program, folder)
    try_words(program)
    for name in failures:
        print(f"failed: {name}")
    print(f"refusals: {tried - len(failures)} passed, {len(failures)} failed")
    return 1 if failures else 0


if __name__ == "__main__":
    sys.exit(main())
