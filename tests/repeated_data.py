#!/usr/bin/env python3
"""Requires that `turnexplain faults` takes n log n time where a client repeats data that the server may not relay.

    python3 tests/repeated_data.py TURNEXPLAIN [--count 60000] [--seconds 20]

A client has an allocation and no permission. It sends the same two payloads in turn to a peer, --count times: by Send indications, each
with a transaction id of its own, or by copies of two. The server relays each. So each datagram to the peer breaks R7, and `faults` has to
report as many, in at most --seconds of processor time. Comparing each with all before it takes minutes.

Messages and captures are made by bench/make_capture.py.
"""

import argparse
import pathlib
import resource
import struct
import subprocess
import sys
import tempfile

HERE = pathlib.Path(__file__).resolve().parent
sys.path.insert(0, str(HERE.parent / "bench"))
sys.dont_write_bytecode = True

from make_capture import BINDING_TYPES, DATA, PEER, SERVER, Client, Side, address, message

START = 1_700_000_000_000_000
STRANGER = ("203.0.112.1", 9)
POLICY = "turnaudit-policy 1\nlisten 192.0.2.1:3478\nrelay 192.0.2.1:49152-65535\n"


def write_captures(folder, count, has_own_ids):
    """Captures of both sides, in which what the client sends is relayed without a permission."""
    sides = client_side, peer_side = Side(folder / "client.pcapng", 0, 0), Side(folder / "peer.pcapng", 0, 64)
    client = Client(0, sides)
    client.open(START)
    for number in range(count):
        data, id = b"again" + bytes([number % 2]), struct.pack(">III", 7, 7, number if has_own_ids else number % 2)
        sent = message(BINDING_TYPES["send"], id, [(PEER, address(STRANGER)), (DATA, data)])
        moment = START + 1000 + 20 * number
        client_side.put(moment, client.endpoint, SERVER, sent)
        peer_side.put(moment + 10, client.relayed, STRANGER, data)
    for side in sides:
        side.out.close()
    (folder / "policy").write_text(POLICY)
    (folder / "creds").write_text("user0\texample.org\tsecret\n")


def faults_of(program, folder):
    """The report of `faults`, and the processor seconds that it took."""
    before = resource.getrusage(resource.RUSAGE_CHILDREN)
    words = [program, "faults", "--policy", folder / "policy", "--creds", folder / "creds", folder / "client.pcapng", folder / "peer.pcapng"]
    run = subprocess.run(words, stdout=subprocess.PIPE, stderr=subprocess.PIPE, check=False)
    after = resource.getrusage(resource.RUSAGE_CHILDREN)
    if run.returncode != 1:
        sys.exit(f"faults: status {run.returncode}, {run.stderr.decode()}")
    return run.stdout.decode(), after.ru_utime + after.ru_stime - before.ru_utime - before.ru_stime


def main():
    words = argparse.ArgumentParser(description="Times faults of data that a client repeats.")
    words.add_argument("program", type=pathlib.Path)
    words.add_argument("--count", type=int, default=60_000)
    words.add_argument("--seconds", type=float, default=20)
    options = words.parse_args()
    failed = 0
    for name, has_own_ids in (("send indications", True), ("copies", False)):
        with tempfile.TemporaryDirectory() as folder:
            folder = pathlib.Path(folder)
            write_captures(folder, options.count, has_own_ids)
            report, seconds = faults_of(options.program.resolve(), folder)
        last = report.splitlines()[-1]
        if not last.startswith(f"shown {options.count} ") or f" unpermitted {options.count} " not in last:
            print(f"{name}: {last!r}")
            failed += 1
        if seconds > options.seconds:
            print(f"{name}: {seconds:.1f} seconds")
            failed += 1
        print(f"{name}: {options.count} datagrams without a permission, {seconds:.2f} seconds")
    print(f"{failed} failed")
    return 1 if failed else 0


if __name__ == "__main__":
    sys.exit(main())
