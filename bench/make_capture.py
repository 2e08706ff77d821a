#!/usr/bin/env python3
"""Makes captures of a TURN server that keeps to RFC 8656: CLIENTS clients that exchange DATAGRAMS datagrams in all.

    python3 bench/make_capture.py FOLDER [--clients 24] [--datagrams 1000000] [--step-us 40] [--offset-us 0] [--loss 0]
                                         [--breaks renewals|numbers|data|unasked] [--broken 1]

It writes FOLDER/client.pcapng and FOLDER/peer.pcapng, one interface each, with FOLDER/policy and FOLDER/creds, and where the clocks agree
FOLDER/certificate, the certificate of what the server did, for the captures in that order. Each client
allocates (challenged by a 401 first), asks for a permission or binds a channel, exchanges data with its peer, refreshes, and
deletes its allocation. The clock of the peer side is OFFSET-US microseconds ahead of the other one's, LOSS of a thousand
datagrams from a peer reach the server and go no further. One client after another exchanges two datagrams each STEP-US microseconds.

With --breaks the server keeps to a rule no longer for BROKEN of the clients: it relays on for those that never ask again for a
permission or a channel (R7 once the captures last 300 seconds), binds channels past 0x4FFF (R10), relays other data than the last of each (R13), or
sends a peer of each what nobody asked for (S11).

bench/times.py runs it; bench/attacks.py, tests/simulated.py and tests/random_captures.py import its messages and blocks. It shares
no code with turnaudit or with the plain checker of tests/plain.
"""

import argparse
import hashlib
import hmac
import pathlib
import random
import struct

COOKIE = 0x2112A442
SERVER = ("192.0.2.1", 3478)
BINDING_TYPES = {"allocate": 0x003, "refresh": 0x004, "send": 0x016, "data": 0x017, "permission": 0x008, "channel": 0x009}
SUCCESS = 0x100
ERROR = 0x110
USERNAME, INTEGRITY, ERROR_CODE, CHANNEL_NUMBER = 0x0006, 0x0008, 0x0009, 0x000C
LIFETIME, PEER, DATA, REALM, NONCE = 0x000D, 0x0012, 0x0013, 0x0014, 0x0015
RELAYED, TRANSPORT, MAPPED = 0x0016, 0x0019, 0x0020
SECTION = struct.pack("<IIIHHqI", 0x0A0D0D0A, 28, 0x1A2B3C4D, 1, 0, -1, 28)
INTERFACE = struct.pack("<IIHHII", 1, 20, 1, 0, 262144, 20)


def ip_bytes(ip):
    return bytes(int(part) for part in ip.split("."))


def address(endpoint):
    """The value of an attribute that holds an address, exclusive-or'd with the cookie."""
    ip, port = endpoint
    number = struct.unpack(">I", ip_bytes(ip))[0]
    return struct.pack(">BBHI", 0, 1, port ^ (COOKIE >> 16), number ^ COOKIE)


def message(kind, transaction, attributes, key=None):
    """A STUN message, signed where there is a key."""
    body = b"".join(struct.pack(">HH", number, len(value)) + value + bytes(-len(value) % 4) for number, value in attributes)
    if key is not None:
        head = struct.pack(">HHI", kind, len(body) + 24, COOKIE) + transaction
        body += struct.pack(">HH", INTEGRITY, 20) + hmac.new(key, head + body, hashlib.sha1).digest()
    return struct.pack(">HHI", kind, len(body), COOKIE) + transaction + body


class Side:
    """One interface's capture."""

    def __init__(self, path, offset, interface):
        self.out = path.open("wb")
        self.out.write(SECTION + INTERFACE)
        self.offset = offset
        self.interface = interface
        self.count = 0

    def put(self, moment, source, target, payload):
        """A datagram at a moment in microseconds; its name in certificates."""
        udp = struct.pack(">HHHH", source[1], target[1], 8 + len(payload), 0) + payload
        ip = struct.pack(">BBHHHBBH", 0x45, 0, 20 + len(udp), 0, 0, 64, 17, 0) + ip_bytes(source[0]) + ip_bytes(target[0])
        frame = bytes([2, 0, 0, 0, 0, 1, 2, 0, 0, 0, 0, 2, 8, 0]) + ip + udp
        stamp = moment + self.offset
        size = 32 + len(frame) + -len(frame) % 4
        head = struct.pack("<IIIIIII", 6, size, 0, stamp >> 32, stamp & 0xFFFFFFFF, len(frame), len(frame))
        self.out.write(head + frame + bytes(-len(frame) % 4) + struct.pack("<I", size))
        name = f"{self.interface}.{self.count}"
        self.count += 1
        return name


class Client:
    """A client with an allocation and one peer."""

    def __init__(self, number, sides):
        self.sides = sides
        self.endpoint = (f"198.51.{100 + number // 250}.{1 + number % 250}", 40000)
        self.relayed = ("192.0.2.1", 49152 + number)
        self.peer = (f"203.0.{113 + number // 250}.{1 + number % 250}", 7000)
        self.name = f"user{number}"
        self.key = hashlib.md5(f"{self.name}:example.org:secret".encode()).digest()
        self.channel = 0x4000 + number % 0x1000 if number % 2 else None
        self.count = 0
        self.number = number
        self.renews = True
        self.events = []
        self.drops = []

    def answered(self, came, arrives, left, leaves):
        """The server answered one datagram by another, as that left."""
        self.events.append(f"in {arrives} {came}000 0\nact {arrives} {leaves} {left}000 0\nout {leaves} {left}000 1\n")

    def transaction(self):
        self.count += 1
        return struct.pack(">II", self.number, self.count) + b"turn"

    def request(self, moment, name, attributes, answer, challenged=False):
        """A signed request and its success, or an Allocate and the error that asks for credentials."""
        client, _ = self.sides
        id = self.transaction()
        kind = BINDING_TYPES[name]
        if challenged:
            arrives = client.put(moment, self.endpoint, SERVER, message(kind, id, attributes))
            error = [(ERROR_CODE, bytes([0, 0, 4, 1]) + b"Unauthorized"), (REALM, b"example.org"), (NONCE, b"nonce")]
            leaves = client.put(moment + 20, SERVER, self.endpoint, message(kind | ERROR, id, error))
            self.answered(moment, arrives, moment + 20, leaves)
            return
        named = [(USERNAME, self.name.encode()), (REALM, b"example.org"), (NONCE, b"nonce")]
        arrives = client.put(moment, self.endpoint, SERVER, message(kind, id, attributes + named, self.key))
        leaves = client.put(moment + 20, SERVER, self.endpoint, message(kind | SUCCESS, id, answer, self.key))
        self.answered(moment, arrives, moment + 20, leaves)

    def open(self, moment):
        asks = [(TRANSPORT, bytes([17, 0, 0, 0]))]
        self.request(moment, "allocate", asks, [], challenged=True)
        gives = [(RELAYED, address(self.relayed)), (LIFETIME, struct.pack(">I", 600)), (MAPPED, address(self.endpoint))]
        self.request(moment + 100, "allocate", asks, gives)
        self.renew(moment + 200)

    def renew(self, moment):
        if self.channel is None:
            self.request(moment, "permission", [(PEER, address(self.peer))], [])
        else:
            number = struct.pack(">HH", self.channel, 0)
            self.request(moment, "channel", [(CHANNEL_NUMBER, number), (PEER, address(self.peer))], [])

    def refresh(self, moment, seconds):
        lifetime = struct.pack(">I", seconds)
        self.request(moment, "refresh", [(LIFETIME, lifetime)], [(LIFETIME, lifetime)])

    def to_peer(self, moment, data, relayed=None):
        """Data to the peer, which is relayed as it is or as other data."""
        client, peer = self.sides
        if self.channel is None:
            sent = message(BINDING_TYPES["send"], self.transaction(), [(PEER, address(self.peer)), (DATA, data)])
        else:
            sent = struct.pack(">HH", self.channel, len(data)) + data + bytes(-len(data) % 4)
        arrives = client.put(moment, self.endpoint, SERVER, sent)
        leaves = peer.put(moment + 10, self.relayed, self.peer, data if relayed is None else relayed)
        self.answered(moment, arrives, moment + 10, leaves)

    def from_peer(self, moment, data, lost):
        client, peer = self.sides
        arrives = peer.put(moment, self.peer, self.relayed, data)
        if lost:
            self.drops.append(f"drop {arrives} {moment}000 0\n")
            return
        if self.channel is None:
            given = message(BINDING_TYPES["data"], self.transaction(), [(PEER, address(self.peer)), (DATA, data)])
        else:
            given = struct.pack(">HH", self.channel, len(data)) + data
        leaves = client.put(moment + 10, SERVER, self.endpoint, given)
        self.answered(moment, arrives, moment + 10, leaves)


def write_certificate(path, clients):
    """Each client's lane, as the server went about it."""
    with path.open("w") as out:
        out.write("turnaudit-certificate 1\n")
        for client in clients:
            ip, port = client.endpoint
            out.write(f"lane {ip}:{port} {SERVER[0]}:{SERVER[1]}\n")
            out.writelines(client.events)
        out.writelines(line for client in clients for line in client.drops)
        out.write("end\n")


def main():
    words = argparse.ArgumentParser(description="Makes captures of a TURN server that keeps to its rules.")
    words.add_argument("folder", type=pathlib.Path)
    words.add_argument("--clients", type=int, default=24)
    words.add_argument("--datagrams", type=int, default=1_000_000)
    words.add_argument("--step-us", type=int, default=40)
    words.add_argument("--offset-us", type=int, default=0)
    words.add_argument("--loss", type=int, default=0)
    words.add_argument("--breaks", choices=["renewals", "numbers", "data", "unasked"])
    words.add_argument("--broken", type=int, default=1)
    asked = words.parse_args()
    chance = random.Random(1)
    asked.folder.mkdir(parents=True, exist_ok=True)
    (asked.folder / "policy").write_text("turnaudit-policy 1\nlisten 192.0.2.1:3478\nrelay 192.0.2.1:49152-65535\n")
    users = (f"user{number}\texample.org\tsecret\n" for number in range(asked.clients))
    (asked.folder / "creds").write_text("".join(users))
    sides = (Side(asked.folder / "client.pcapng", 0, 0), Side(asked.folder / "peer.pcapng", asked.offset_us, 64))
    clients = [Client(number, sides) for number in range(asked.clients)]
    broken = clients[:asked.broken] if asked.breaks else []
    for client in broken:
        client.renews = asked.breaks != "renewals"
        if asked.breaks == "numbers":
            client.channel = 0x5000 + client.number % 0x1000
    moment = 1_700_000_000_000_000
    for client in clients:
        client.open(moment)
        moment += 1000
    renewed = moment
    for number in range(max(0, (asked.datagrams - 10 * asked.clients) // 2)):
        if moment - renewed > 200_000_000:
            for client in clients:
                client.refresh(moment, 600)
                if client.renews:
                    client.renew(moment + 100)
                moment += 1000
            renewed = moment
        client = clients[number % asked.clients]
        data = struct.pack(">I", number if chance.random() < 0.9 else 0) + bytes(chance.randrange(20, 160))
        if chance.random() < 0.5:
            client.to_peer(moment, data)
        else:
            client.from_peer(moment, data, chance.randrange(1000) < asked.loss)
        moment += asked.step_us
    for client in broken if asked.breaks == "data" else []:
        client.to_peer(moment, b"what the client sent", b"what the server relayed")
        moment += asked.step_us
    for client in broken if asked.breaks == "unasked" else []:
        sides[1].put(moment, client.relayed, client.peer, b"what nobody asked for")
        moment += asked.step_us
    for client in clients:
        client.refresh(moment, 0)
        moment += 1000
    if asked.offset_us == 0:
        write_certificate(asked.folder / "certificate", clients)


if __name__ == "__main__":
    main()
