#!/usr/bin/env python3
"""Requires that `turnexplain faults` takes n log n time where many clients send equal datagrams.

    python3 tests/equal_data.py TURNEXPLAIN [--count 6000] [--seconds 10]

In one capture as many clients as --count says send a Binding request each, all of one transaction id, and all are answered after the
last of them. In another one a client without a permission sends the same data to as many peers, which is relayed after the last. In the
others each of as many clients has an allocation. They send the same data to one peer, or that peer sends it to their relayed addresses,
in indications or in channels, and all of it is relayed after the last: with the permissions or channels that it needs, or without. Each
takes at most --seconds of processor time. Comparing each departure with all datagrams before it takes minutes.

Messages and captures are made by bench/make_capture.py.
"""

import argparse
import functools
import pathlib
import resource
import struct
import subprocess
import sys
import tempfile

HERE = pathlib.Path(__file__).resolve().parent
sys.path.insert(0, str(HERE.parent / "bench"))
sys.dont_write_bytecode = True

from make_capture import BINDING_TYPES, DATA, MAPPED, PEER, SERVER, SUCCESS, Client, Side, address, message

START = 1_700_000_000_000_000
POLICY = "turnaudit-policy 1\nlisten 192.0.2.1:3478\nrelay 192.0.2.1:49152-65535\n"
BINDING = 0x001
DATA_BYTES = b"equal"
CHANNEL = 0x4000
SERVED = ("203.0.113.1", 7000)


def open_sides(folder):
    """The captures of both sides, and a client with an allocation."""
    sides = Side(folder / "client.pcapng", 0, 0), Side(folder / "peer.pcapng", 0, 64)
    client = Client(0, sides)
    client.open(START)
    (folder / "policy").write_text(POLICY)
    (folder / "creds").write_text("user0\texample.org\tsecret\n")
    return sides, client


def of_clients(folder, count):
    """Requests of one transaction id, and their responses."""
    sides, _ = open_sides(folder)
    sources = [(f"198.52.{number >> 8}.{number & 255}", 40000) for number in range(count)]
    moment = START + 1000
    for source in sources:
        sides[0].put(moment, source, SERVER, message(BINDING, bytes(12), []))
        moment += 1
    for source in sources:
        sides[0].put(moment, SERVER, source, message(BINDING | SUCCESS, bytes(12), [(MAPPED, address(source))]))
        moment += 1
    return sides


def for_peers(folder, count):
    """The same data to many peers without a permission."""
    sides, client = open_sides(folder)
    peers = [(f"203.1.{number >> 8}.{number & 255}", 9) for number in range(count)]
    moment = START + 1000
    for peer in peers:
        sent = message(BINDING_TYPES["send"], client.transaction(), [(PEER, address(peer)), (DATA, DATA_BYTES)])
        sides[0].put(moment, client.endpoint, SERVER, sent)
        moment += 1
    for peer in peers:
        sides[1].put(moment, client.relayed, peer, DATA_BYTES)
        moment += 1
    return sides


def with_peer(folder, count, from_peer, in_channels, allowed):
    """The same data of many clients to a peer, or of the peer to each of them."""
    sides = Side(folder / "client.pcapng", 0, 0), Side(folder / "peer.pcapng", 0, 64)
    (folder / "policy").write_text(POLICY)
    (folder / "creds").write_text("".join(f"user{number}\texample.org\tsecret\n" for number in range(count)))
    clients = [Client(number, sides) for number in range(count)]
    moment = START
    for client in clients:
        client.peer = SERVED if allowed else ("203.0.113.2", 7000)
        client.channel = CHANNEL if in_channels else None
        client.open(moment)
        moment += 1000
    framed = struct.pack(">HH", CHANNEL, len(DATA_BYTES)) + DATA_BYTES + bytes(-len(DATA_BYTES) % 4)
    named = [(PEER, address(SERVED)), (DATA, DATA_BYTES)]
    kind = BINDING_TYPES["data" if from_peer else "send"]
    to_server = [(client, framed if in_channels else message(kind, client.transaction(), named)) for client in clients]
    for client, content in to_server:
        if from_peer:
            sides[1].put(moment, SERVED, client.relayed, DATA_BYTES)
        else:
            sides[0].put(moment, client.endpoint, SERVER, content)
        moment += 1
    for client, content in to_server:
        if from_peer:
            sides[0].put(moment, SERVER, client.endpoint, content)
        else:
            sides[1].put(moment, client.relayed, SERVED, DATA_BYTES)
        moment += 1
    return sides


def captures(count):
    """The name of each capture, what builds it, and how many faults it shows."""
    yield "of clients", of_clients, 0
    yield "for peers", for_peers, count
    for from_peer in (False, True):
        for in_channels in (False, True):
            for allowed in (True, False):
                name = f"{'of a peer' if from_peer else 'to a peer'}, {'in channels' if in_channels else 'in indications'}, {'allowed' if allowed else 'refused'}"
                build = functools.partial(with_peer, from_peer=from_peer, in_channels=in_channels, allowed=allowed)
                yield name, build, 0 if allowed else count


def faults_of(program, folder):
    """The last line of the report of `faults`, and the processor seconds that it took."""
    before = resource.getrusage(resource.RUSAGE_CHILDREN)
    words = [program, "faults", "--policy", folder / "policy", "--creds", folder / "creds", folder / "client.pcapng", folder / "peer.pcapng"]
    run = subprocess.run(words, stdout=subprocess.PIPE, stderr=subprocess.PIPE, check=False)
    after = resource.getrusage(resource.RUSAGE_CHILDREN)
    if run.returncode not in (0, 1):
        sys.exit(f"faults: status {run.returncode}, {run.stderr.decode()}")
    return run.stdout.decode().splitlines()[-1], after.ru_utime + after.ru_stime - before.ru_utime - before.ru_stime


def main():
    words = argparse.ArgumentParser(description="Times faults of equal datagrams of many clients.")
    words.add_argument("program", type=pathlib.Path)
    words.add_argument("--count", type=int, default=6000)
    words.add_argument("--seconds", type=float, default=10)
    options = words.parse_args()
    failed = 0
    for name, build, faults in captures(options.count):
        with tempfile.TemporaryDirectory() as folder:
            folder = pathlib.Path(folder)
            for side in build(folder, options.count):
                side.out.close()
            last, seconds = faults_of(options.program.resolve(), folder)
        if not last.startswith(f"shown {faults} "):
            print(f"{name}: {last!r}")
            failed += 1
        if seconds > options.seconds:
            print(f"{name}: {seconds:.1f} seconds")
            failed += 1
        print(f"{name}: {options.count} equal datagrams, {faults} faults, {seconds:.2f} seconds")
    print(f"{failed} failed")
    return 1 if failed else 0


if __name__ == "__main__":
    sys.exit(main())
