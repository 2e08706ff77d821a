"""The captures of bench/attacks.py, each built into a folder for a number of datagrams: the text of that file says what each is.

Messages and blocks are made by bench/make_capture.py, which it imports.
"""

import functools
import pathlib
import shutil
import struct
import subprocess
import tempfile

import make_capture
from make_capture import DATA, ERROR, ERROR_CODE, LIFETIME, MAPPED, NONCE, PEER, REALM, RELAYED, SERVER, SUCCESS, TRANSPORT
from make_capture import BINDING_TYPES, Client, Side, address, message

BINDING = 0x001
SOFTWARE = 0x8022
START = 1_700_000_000_000_000
POLICY = "turnaudit-policy 1\nlisten 192.0.2.1:3478\nrelay 192.0.2.1:49152-65535\n"
USERNAME = make_capture.USERNAME
ASKS = [(TRANSPORT, bytes([17, 0, 0, 0]))]
"""What an Allocate request has besides what signs it."""


class Capture:
    """A folder with a policy, credentials and the captures of both sides."""

    def __init__(self, folder, users):
        folder.mkdir(parents=True)
        self.folder = folder
        (folder / "policy").write_text(POLICY)
        (folder / "creds").write_text("".join(f"user{number}\texample.org\tsecret\n" for number in range(users)))
        self.client, self.peer = Side(folder / "client.pcapng", 0, 0), Side(folder / "peer.pcapng", 0, 64)

    def sides(self):
        return self.client, self.peer

    def close(self):
        self.client.out.close()
        self.peer.out.close()


def granted(client):
    """What the success response has that grants a client its relayed address."""
    return [(RELAYED, address(client.relayed)), (LIFETIME, struct.pack(">I", 600)), (MAPPED, address(client.endpoint))]


def ordinary(folder, datagrams, size):
    """24 clients that exchange data of that size with their peers; one, where the data is large and the datagrams few."""
    count = 24 if size < 1000 else 1
    capture = Capture(folder, count)
    clients = [Client(number, capture.sides()) for number in range(count)]
    moment = START
    for client in clients:
        client.open(moment)
        moment += 1000
    for number in range((datagrams - 10 * count) // 2):
        client = clients[number % count]
        data = struct.pack(">I", number) + bytes(size)
        if number % (2 * count) < count:
            client.to_peer(moment, data)
        else:
            client.from_peer(moment, data, False)
        moment += 40
    capture.close()


def users(folder, datagrams, size):
    capture = Capture(folder, 65_536)
    client = Client(0, capture.sides())
    client.open(START)
    moment = START + 1000
    lifetime = struct.pack(">I", 600)
    for number in range(1, min(datagrams // 2, 65_536)):
        client.name = f"user{number}"
        key = make_capture.hashlib.md5(f"user{number}:example.org:secret".encode()).digest()
        id = client.transaction()
        named = [(USERNAME, client.name.encode()), (REALM, b"example.org"), (NONCE, b"nonce")]
        capture.client.put(moment, client.endpoint, SERVER, message(BINDING_TYPES["refresh"], id, [(LIFETIME, lifetime)] + named, key))
        error = [(ERROR_CODE, bytes([0, 0, 4, 41]) + b"Wrong Credentials")]
        capture.client.put(moment + 20, SERVER, client.endpoint, message(BINDING_TYPES["refresh"] | ERROR, id, error))
        moment += 40
    capture.close()


def bindings(folder, sources):
    """A Binding request from each of these addresses, and its success."""
    capture = Capture(folder, 0)
    moment = START
    for number, source in enumerate(sources):
        id = struct.pack(">III", 0, 0, number)
        capture.client.put(moment, source, SERVER, message(BINDING, id, []))
        capture.client.put(moment + 20, SERVER, source, message(BINDING | SUCCESS, id, [(MAPPED, address(source))]))
        moment += 40
    capture.close()


def clients(folder, datagrams, size):
    bindings(folder, [(f"198.51.{number >> 8}.{number & 255}", 40000) for number in range(min(datagrams // 2, 65_536))])


@functools.cache
def colliding_clients():
    """Addresses that meet in the table of clients where its seed is 0."""
    with tempfile.TemporaryDirectory() as room:
        finder = pathlib.Path(room) / "colliding_clients"
        source = pathlib.Path(__file__).with_name("colliding_clients.c")
        subprocess.run(["gcc", "-O3", "-march=native", "-o", finder, source], check=True)
        lines = subprocess.run([finder, "0"], stdout=subprocess.PIPE, text=True, check=True).stdout.splitlines()
    return [(ip, int(port)) for ip, port in map(str.split, lines)]


def colliding(folder, datagrams, size):
    bindings(folder, 4 * colliding_clients()[:datagrams // 8])


def send(client, peer, data):
    return message(BINDING_TYPES["send"], client.transaction(), [(PEER, address(peer)), (DATA, data)])


def denied(folder, datagrams, size):
    capture = Capture(folder, 1)
    client = Client(0, capture.sides())
    client.open(START)
    stranger, data, moment = ("203.0.112.1", 9), b"asked by each", START + 1000
    fillers = [(SOFTWARE, b"")] * 13_000
    for number in range(64):
        indication = message(BINDING_TYPES["send"], client.transaction(), fillers + [(PEER, address(stranger)), (DATA, data)])
        capture.client.put(moment, client.endpoint, SERVER, indication)
        moment += 1
    for number in range(datagrams // 8):
        capture.peer.put(moment, client.relayed, stranger, data)
        for other in range(7):
            source = (f"198.51.{number >> 8 & 255}.{number & 255}", 40000 + other)
            capture.client.put(moment + other, source, SERVER, message(BINDING, struct.pack(">III", 0, other, number), []))
        moment += 8
    capture.close()


def refused(folder, datagrams, size):
    capture = Capture(folder, 1)
    client = Client(0, capture.sides())
    client.open(START)
    stranger, moment = ("203.0.112.1", 9), START + 1000
    for number in range(datagrams // 2):
        data = bytes([number % 2]) * size
        capture.client.put(moment, client.endpoint, SERVER, send(client, stranger, data))
        capture.peer.put(moment + 10, client.relayed, stranger, data)
        moment += 20
    capture.close()


def equal(folder, datagrams, size, in_channels):
    """Many clients send the same data to one peer, and the server relays it after the last of them."""
    count = min(16_000, datagrams // 16)
    capture = Capture(folder, count)
    clients = [Client(number, capture.sides()) for number in range(count)]
    moment = START
    for client in clients:
        client.peer = ("203.0.113.1", 7000)
        client.channel = 0x4000 if in_channels else None
        client.open(moment)
        moment += 300
    for turn in range((datagrams - 6 * count) // (2 * count)):
        data = struct.pack(">I", turn) + bytes(size)
        framed = struct.pack(">HH", 0x4000, len(data)) + data
        for client in clients:
            capture.client.put(moment, client.endpoint, SERVER, framed if in_channels else send(client, client.peer, data))
            moment += 1
        for client in clients:
            capture.peer.put(moment, client.relayed, client.peer, data)
            moment += 1
    capture.close()


def equal_sends(folder, datagrams, size):
    equal(folder, datagrams, size, False)


def equal_channels(folder, datagrams, size):
    equal(folder, datagrams, size, True)


def unasked(folder, datagrams, size):
    capture = Capture(folder, 1)
    client = Client(0, capture.sides())
    client.open(START)
    data, moment = bytes(size), START + 1000
    for number in range(datagrams // 2):
        capture.client.put(moment, client.endpoint, SERVER, send(client, client.peer, data))
        capture.peer.put(moment + 10, client.relayed, client.peer, data)
        if number % 64 == 63:
            for copy in range(64):
                capture.peer.put(moment + 11 + copy, client.relayed, client.peer, data)
            moment += 64
        moment += 40
    capture.close()


def silent(folder, datagrams, size):
    capture = Capture(folder, 1)
    client = Client(0, capture.sides())
    id, moment = client.transaction(), START
    named = [*ASKS, (USERNAME, b"user0"), (REALM, b"example.org"), (NONCE, b"nonce")]
    request = message(BINDING_TYPES["allocate"], id, named, client.key)
    for number in range(datagrams // 2):
        capture.client.put(moment, client.endpoint, SERVER, request)
        moment += 4
    success = message(BINDING_TYPES["allocate"] | SUCCESS, id, granted(client), client.key)
    for number in range(datagrams // 2):
        capture.client.put(moment, SERVER, client.endpoint, success)
        moment += 4
    capture.close()


def copies(folder, datagrams, size):
    capture = Capture(folder, 1)
    client = Client(0, capture.sides())
    client.open(START)
    moment = START + 1000
    for number in range(datagrams // 2):
        client.from_peer(moment, bytes(size), False)
        moment += 40
    capture.close()


def same(folder, datagrams, size):
    capture = Capture(folder, 0)
    source, id, moment = ("198.51.100.1", 40000), bytes(12), START
    for number in range(datagrams // 2):
        capture.client.put(moment, source, SERVER, message(BINDING, id, []))
        capture.client.put(moment + 20, SERVER, source, message(BINDING | SUCCESS, id, [(MAPPED, address(source))]))
        moment += 40
    capture.close()


def permissions(folder, datagrams, size):
    capture = Capture(folder, 1)
    client = Client(0, capture.sides())
    client.open(START)
    peers = [(f"203.{number >> 16}.{number >> 8 & 255}.{number & 255}", 7000) for number in range(min(60_000, datagrams // 2))]
    moment = START + 1000
    for first in range(0, len(peers), 60):
        client.request(moment, "permission", [(PEER, address(peer)) for peer in peers[first:first + 60]], [])
        moment += 40
    for number in range(datagrams // 2 - len(peers) // 60):
        client.peer = peers[number * 7919 % len(peers)]
        client.to_peer(moment, bytes(size))
        moment += 40
    capture.close()


def channels(folder, datagrams, size):
    capture = Capture(folder, 1)
    client = Client(0, capture.sides())
    client.open(START)
    count = min(16_383, datagrams // 4)
    moment = START + 1000
    for number in range(count):
        client.channel, client.peer = 0x4000 + number, (f"203.0.{number >> 8}.{number & 255}", 7000)
        client.renew(moment)
        moment += 40
    for number in range(datagrams // 2 - count):
        at = number * 7919 % count
        client.channel, client.peer = 0x4000 + at, (f"203.0.{at >> 8}.{at & 255}", 7000)
        client.to_peer(moment, bytes(size))
        moment += 40
    capture.close()


def handed(folder, datagrams, size):
    count = 1000
    capture = Capture(folder, count)
    clients = [Client(number, capture.sides()) for number in range(count)]
    moment = START
    for number in range(datagrams // 4):
        client = clients[number % count]
        client.relayed = ("192.0.2.1", 49152)
        client.request(moment, "allocate", ASKS, granted(client))
        client.refresh(moment + 40, 0)
        moment += 80
    capture.close()


def outstanding(folder, datagrams, size):
    capture = Capture(folder, 1)
    client = Client(0, capture.sides())
    client.open(START)
    named = [(USERNAME, client.name.encode()), (REALM, b"example.org"), (NONCE, b"nonce")]
    none = (LIFETIME, struct.pack(">I", 0))
    ids = [client.transaction() for _ in range(datagrams // 2)]
    # All are requested in the first half of a second, and answered in the second one.
    for half, (kind, moment) in enumerate([(0, START + 1_000_000), (SUCCESS, START + 1_500_000)]):
        for number, id in enumerate(ids):
            at = moment + number * 500_000 // len(ids)
            said = message(BINDING_TYPES["refresh"] | kind, id, [none] if half else [none, *named], client.key)
            ends = (SERVER, client.endpoint) if half else (client.endpoint, SERVER)
            capture.client.put(at, *ends, said)
    capture.peer.put(START + 2_000_000, client.relayed, client.peer, bytes(size))
    capture.close()


def reversed_stamps(folder, datagrams, size):
    capture = Capture(folder, 0)
    capture.client.out.seek(0)
    capture.client.out.write(make_capture.SECTION + 64 * make_capture.INTERFACE)
    for number in range(datagrams):
        source = ("198.51.100.1", 40000 + number % 64)
        at = capture.client.out.tell()
        capture.client.put(START + 40 * (datagrams - number), source, SERVER, message(BINDING, struct.pack(">III", 0, 0, number), []))
        # The interface's number stands after the block's type and length.
        capture.client.out.seek(at + 8)
        capture.client.out.write(struct.pack("<I", number % 64))
        capture.client.out.seek(0, 2)
    capture.close()


# The captures below end in a conflict: two clients are granted one relayed address. No datagram shows that as a fault by itself, so
# `audit` tries the passes, whose work they are made to multiply.


def conflict(capture, moment):
    """Two more clients are granted one relayed address, the second one while the first one has it."""
    with (capture.folder / "creds").open("a") as creds:
        creds.write("".join(f"user{number}\texample.org\tsecret\n" for number in (70_000, 70_001)))
    for number in (70_000, 70_001):
        client = Client(number, capture.sides())
        client.endpoint, client.relayed = ("198.51.99.1", number - 60_000), ("192.0.2.1", 65_535)
        client.request(moment, "allocate", ASKS, granted(client))
        moment += 1000


def allocates(folder, datagrams, size):
    capture = Capture(folder, 1)
    client = Client(0, capture.sides())
    count = datagrams // 4
    none = [(LIFETIME, struct.pack(">I", 0))]
    ids = [client.transaction() for _ in range(2 * count + 2)]
    # All are requested in the first half of a second, and answered in the second one: one that is granted, one that deletes, and so
    # on, and at the end two that are granted.
    for half, moment in enumerate([START, START + 500_000]):
        for number, id in enumerate(ids):
            at = moment + number * 500_000 // len(ids)
            is_grant = number % 2 == 0 or number > 2 * count
            client.relayed = ("192.0.2.1", 49_152 + number % 16_000)
            kind = BINDING_TYPES["allocate" if is_grant else "refresh"]
            if half:
                said = message(kind | SUCCESS, id, granted(client) if is_grant else none, client.key)
                capture.client.put(at, SERVER, client.endpoint, said)
            else:
                named = [(USERNAME, client.name.encode()), (REALM, b"example.org"), (NONCE, b"nonce")]
                capture.client.put(at, client.endpoint, SERVER, message(kind, id, (ASKS if is_grant else none) + named, client.key))
    capture.close()


def holders(folder, datagrams, count):
    """Clients that are granted one relayed address in turn, each of which requests it before the one before gets the response to its deletion."""
    capture = Capture(folder, count)
    clients = [Client(number, capture.sides()) for number in range(count)]
    moment = START
    for number in range(datagrams // 6):
        client = clients[number % count]
        client.relayed = ("192.0.2.1", 49_152)
        client.request(moment, "allocate", ASKS, granted(client))
        client.request(moment + 1, "permission", [(PEER, address(client.peer))], [])
        client.refresh(moment + 2, 0)
        moment += 3
    conflict(capture, moment + 1000)
    capture.close()


def two_holders(folder, datagrams, size):
    holders(folder, datagrams, 2)


def many_holders(folder, datagrams, size):
    holders(folder, datagrams, 1000)


def held(folder, datagrams, size):
    count = 1000
    capture = Capture(folder, count)
    clients = [Client(number, capture.sides()) for number in range(count)]
    moment = START
    for number in range(datagrams // 2):
        client = clients[number % count]
        client.relayed = ("192.0.2.1", 49_152)
        client.request(moment, "allocate", ASKS, granted(client))
        moment += 40
    capture.close()


def churn(folder, datagrams, size):
    count = 100
    capture = Capture(folder, count)
    clients = [Client(number, capture.sides()) for number in range(count)]
    moment = START
    for number in range(datagrams // 8):
        client = clients[number % count]
        client.request(moment, "allocate", ASKS, granted(client))
        client.renew(moment + 40)
        client.to_peer(moment + 80, bytes(8))
        client.refresh(moment + 120, 0)
        moment += 160
    conflict(capture, moment)
    capture.close()


def channels_conflict(folder, datagrams, size):
    capture = Capture(folder, 1)
    client = Client(0, capture.sides())
    client.open(START)
    count = min(4096, datagrams // 4)
    moment = START + 1000
    for number in range(datagrams // 2):
        at = number * 7919 % count if number >= count else number
        client.channel, client.peer = 0x4000 + at, (f"203.0.{at >> 8}.{at & 255}", 7000)
        if number < count:
            client.renew(moment)
        else:
            client.to_peer(moment, bytes(8))
        moment += 40
    conflict(capture, moment)
    capture.close()


def permissions_conflict(folder, datagrams, size):
    capture = Capture(folder, 1)
    client = Client(0, capture.sides())
    client.open(START)
    moment = START + 1000
    for number in range(datagrams // 2):
        at = number % 5000
        client.request(moment, "permission", [(PEER, address((f"203.1.{at >> 8}.{at & 255}", 7000)))], [])
        moment += 40
    conflict(capture, moment)
    capture.close()


class OfManyInterfaces(Capture):
    """Files of this many interfaces each, the clock of each interface `step` microseconds ahead of the one before."""

    def __init__(self, folder, files, count, step, skew):
        super().__init__(folder, 0)
        (folder / "policy").write_text(POLICY + (f"skew-us {skew}\n" if skew else ""))
        self.count, self.step = count, step
        self.files = [*super().sides(), *(Side(folder / f"side{number}.pcapng", 0, 64 * number) for number in range(2, files))]
        for side in self.files:
            side.out.seek(0)
            side.out.write(make_capture.SECTION + count * make_capture.INTERFACE)

    def close(self):
        for side in self.files:
            side.out.close()

    def put(self, interface, moment, source, target, payload):
        side = self.files[interface // self.count]
        at = side.out.tell()
        side.put(moment + self.step * interface, source, target, payload)
        # The interface's number stands after the block's type and length.
        side.out.seek(at + 8)
        side.out.write(struct.pack("<I", interface % self.count))
        side.out.seek(0, 2)

    def bindings(self, datagrams):
        """Binding requests, each captured on one interface and its success on the next one; and the conflict."""
        source, moment, all_of = ("198.51.100.1", 40000), START, len(self.files) * self.count
        for number in range(datagrams // 2):
            id, after = struct.pack(">III", 0, 0, number), (number + 1) % all_of
            self.put(number % all_of, moment, source, SERVER, message(BINDING, id, []))
            self.put(after, moment + 20, SERVER, source, message(BINDING | SUCCESS, id, [(MAPPED, address(source))]))
            moment += 40
        conflict(self, moment + self.step)
        self.close()


def clocks(folder, datagrams, size):
    OfManyInterfaces(folder, 2, 50, 1, 0).bindings(datagrams)


def ring(folder, datagrams, size):
    OfManyInterfaces(folder, 2, 32, -10, 1000).bindings(datagrams)


def far_apart(folder, datagrams, size):
    OfManyInterfaces(folder, 16, 64, 5_000, 10_000_000).bindings(datagrams)


def eight_times(folder, datagrams, size):
    allocates(folder, datagrams // 8, size)
    for number in range(1, 8):
        shutil.copyfile(folder / "client.pcapng", folder / f"copy{number}.pcapng")
