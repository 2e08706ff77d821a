#!/usr/bin/env python3
"""Measures the memory that `turnaudit check` takes for each sighting.

It writes a capture of COUNT datagrams of 100 bytes to a service, a policy and a certificate that places nothing, so
that all sightings are held in memory before the first of them is found to be unplaced (S1). It prints the bytes of the
peak resident set for each sighting, less those of a run on one sighting.

    python3 bench/memory_of_sightings.py [COUNT]    (1,000,000 where no number is given)

It builds its capture by itself. It imports no file of this repository, and none imports it.
"""

import pathlib
import resource
import struct
import subprocess
import sys
import tempfile

PROGRAM = pathlib.Path(__file__).resolve().parent.parent / "crates/turnaudit/out/turnaudit"
PAYLOAD = bytes(100)
POLICY = b"turnaudit-policy 1\nlisten 192.0.2.1:3478\n"
CERTIFICATE = b"turnaudit-certificate 1\nend\n"
SECTION = struct.pack("<IIIHHqI", 0x0A0D0D0A, 28, 0x1A2B3C4D, 1, 0, -1, 28)
INTERFACE = struct.pack("<IIHHII", 1, 20, 1, 0, 262144, 20)


def frame():
    """A datagram of 100 bytes from 198.51.100.7:40000 to 192.0.2.1:3478."""
    udp = struct.pack(">HHHH", 40000, 3478, 8 + len(PAYLOAD), 0) + PAYLOAD
    addresses = bytes([198, 51, 100, 7, 192, 0, 2, 1])
    ip = struct.pack(">BBHHHBBH", 0x45, 0, 20 + len(udp), 0, 0, 64, 17, 0) + addresses
    return bytes([2, 0, 0, 0, 0, 1, 2, 0, 0, 0, 0, 2, 8, 0]) + ip + udp


def block(stamp, data):
    """An Enhanced Packet Block of interface 0."""
    padded = data + bytes(-len(data) % 4)
    size = 32 + len(padded)
    head = struct.pack("<IIIIIII", 6, size, 0, stamp >> 32, stamp & 0xFFFFFFFF, len(data), len(data))
    return head + padded + struct.pack("<I", size)


def peak(folder, count):
    """The peak resident set in bytes of a check of so many sightings. Linux counts the greatest of all children."""
    capture = folder / "capture.pcapng"
    data = frame()
    with capture.open("wb") as out:
        out.write(SECTION + INTERFACE)
        for number in range(count):
            out.write(block(1_000_000 + number, data))
    words = [PROGRAM, "check", "--policy", folder / "policy", "--cert", folder / "certificate", capture]
    run = subprocess.run(words, stdout=subprocess.PIPE, check=False)
    if run.returncode != 1 or b"rule S1" not in run.stdout:
        sys.exit(f"the run ended with status {run.returncode}: {run.stdout!r}")
    return resource.getrusage(resource.RUSAGE_CHILDREN).ru_maxrss * 1024


def main():
    count = int(sys.argv[1]) if len(sys.argv) > 1 else 1_000_000
    with tempfile.TemporaryDirectory() as name:
        folder = pathlib.Path(name)
        (folder / "policy").write_bytes(POLICY)
        (folder / "certificate").write_bytes(CERTIFICATE)
        least = peak(folder, 1)
        most = peak(folder, count)
    print(f"{(most - least) / count:.0f} bytes for each of {count} sightings of {len(PAYLOAD)} bytes")


if __name__ == "__main__":
    main()
