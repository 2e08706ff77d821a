#!/usr/bin/env python3
"""Captures of a server that breaks its rules where `turnprep cut` excludes datagrams, for tests/prepared.py.

The captures have a client whose allocation is from before them, if the arguments of `cut` allow one, and a client that is judged. An audit
of what `cut` wrote has to report each of these breaches, and nothing of the captures in which the server keeps to its rules. The messages
and blocks are those of bench/make_capture.py.
"""

import pathlib
import struct
import sys

TOP = pathlib.Path(__file__).resolve().parent.parent
sys.path.insert(0, str(TOP / "bench"))

import make_capture  # noqa: E402
from make_capture import BINDING_TYPES, DATA, ERROR, ERROR_CODE, LIFETIME, PEER, RELAYED, SERVER, SUCCESS, TRANSPORT  # noqa: E402
from make_capture import address, ip_bytes, message  # noqa: E402

START = 1_700_000_000_000_000
# When the server breaks a rule, in microseconds since 1970, and when the judged client has no allocation any more.
THEN = START + 5_000_000
LEFT = START + 7_000_020
STRANGER = ("198.51.100.200", 45454)
LEAKED = b"data of the judged client"
FREE = ("192.0.2.1", 60000)
THIRD = ("203.0.113.77", 9)
TLS_CLIENT = ("198.51.100.90", 50000)


class Scene:
    """Two clients and the two sides of the server."""

    def __init__(self, folder, has_before):
        self.sides = (make_capture.Side(folder / "client.pcapng", 0, 0), make_capture.Side(folder / "peer.pcapng", 0, 64))
        self.judged, self.before = (make_capture.Client(number, self.sides) for number in (0, 2))
        if has_before:
            for number in range(4):
                self.before.to_peer(START + 1_000 * number, b"up %d" % number)
                self.before.from_peer(START + 1_000 * number + 500, b"down %d" % number, False)
        self.judged.open(START + 1_000_000)
        self.judged.to_peer(START + 1_100_000, b"first up")
        self.judged.from_peer(START + 1_200_000, b"first down", False)

    def arrive(self, moment, data=LEAKED):
        """Data of the judged client's peer arrives."""
        self.sides[1].put(moment, self.judged.peer, self.judged.relayed, data)

    def deliver(self, moment, endpoint, data=LEAKED, peer=None):
        """The server sends a client a Data indication."""
        given = message(BINDING_TYPES["data"], self.judged.transaction(), [(PEER, address(peer or self.judged.peer)), (DATA, data)])
        self.sides[0].put(moment, SERVER, endpoint, given)

    def elsewhere(self, moment, frame_type, packet):
        """A frame that is no UDP over IPv4, on the interface of the clients."""
        out = self.sides[0].out
        frame = bytes([2, 0, 0, 0, 0, 1, 2, 0, 0, 0, 0, 2]) + struct.pack(">H", frame_type) + packet
        size = 32 + len(frame) + -len(frame) % 4
        out.write(struct.pack("<IIIIIII", 6, size, 0, moment >> 32, moment & 0xFFFFFFFF, len(frame), len(frame)))
        out.write(frame + bytes(-len(frame) % 4) + struct.pack("<I", size))
        self.sides[0].count += 1

    def by_tcp(self, moment, source, target, payload):
        """A segment of TCP over IPv4."""
        segment = struct.pack(">HHIIBBHHH", source[1], target[1], 1, 1, 0x50, 0x18, 1000, 0, 0) + payload
        head = struct.pack(">BBHHHBBH", 0x45, 0, 20 + len(segment), 0, 0, 64, 6, 0)
        self.elsewhere(moment, 0x0800, head + ip_bytes(source[0]) + ip_bytes(target[0]) + segment)

    def by_ipv6(self, moment, source_port, target_port, payload):
        """A datagram of UDP over IPv6."""
        datagram = struct.pack(">HHHH", source_port, target_port, 8 + len(payload), 0) + payload
        self.elsewhere(moment, 0x86DD, struct.pack(">IHBB", 6 << 28, len(datagram), 17, 64) + bytes(32) + datagram)

    def allocate_by_tcp(self, moment, relayed):
        """A client by TCP is told its relayed address."""
        gives = [(RELAYED, address(relayed)), (LIFETIME, struct.pack(">I", 600))]
        told = message(BINDING_TYPES["allocate"] | SUCCESS, self.judged.transaction(), gives)
        self.by_tcp(moment, SERVER, TLS_CLIENT, told)

    def leave(self, moment, relayed, peer, data=LEAKED):
        self.sides[1].put(moment, relayed, peer, data)

    def release(self):
        self.judged.refresh(LEFT - 20, 0)

    def close(self):
        for side in self.sides:
            side.out.close()


def nothing(scene):
    pass


def ends_and_relays_on(scene):
    """As many servers do: what arrives in the moment of a Refresh with LIFETIME 0 is relayed once."""
    scene.release()
    scene.judged.from_peer(LEFT + 300_000, LEAKED, False)
    scene.judged.to_peer(LEFT + 301_000, b"the last up")


def to_before(scene):
    scene.arrive(THEN)
    scene.deliver(THEN + 10, scene.before.endpoint)


def to_before_as_its_own(scene):
    scene.arrive(THEN)
    scene.deliver(THEN + 10, scene.before.endpoint, peer=scene.before.peer)


def to_stranger(scene):
    scene.arrive(THEN)
    scene.deliver(THEN + 10, STRANGER)


def copy_to_before(scene):
    scene.judged.from_peer(THEN, LEAKED, False)
    scene.deliver(THEN + 20, scene.before.endpoint)


def copy_to_stranger(scene):
    scene.judged.from_peer(THEN, LEAKED, False)
    scene.deliver(THEN + 20, STRANGER)


def unsent_to_before(scene):
    scene.deliver(THEN, scene.before.endpoint, peer=scene.before.peer)


def unsent_to_stranger(scene):
    scene.deliver(THEN, STRANGER)


def copy_from_free_port(scene):
    scene.judged.to_peer(THEN, LEAKED)
    scene.leave(THEN + 20, FREE, THIRD)


def copy_from_port_of_before(scene):
    scene.judged.to_peer(THEN, LEAKED)
    scene.leave(THEN + 20, scene.before.relayed, scene.before.peer)


def copy_of_peer_from_free_port(scene):
    scene.judged.from_peer(THEN, LEAKED, False)
    scene.leave(THEN + 20, FREE, THIRD)


def copy_of_peer_beside_tls(scene):
    """The same while a client by TLS sends something that is long enough."""
    scene.by_tcp(THEN - 1_000, TLS_CLIENT, ("192.0.2.1", 5349), bytes(200))
    copy_of_peer_from_free_port(scene)


def unsent_from_free_port(scene):
    scene.leave(THEN, FREE, THIRD)


def copy_from_address_of_tcp(scene):
    scene.allocate_by_tcp(THEN - 2_000_000, FREE)
    scene.by_tcp(THEN - 10, TLS_CLIENT, SERVER, bytes(200))
    scene.judged.to_peer(THEN, LEAKED)
    scene.leave(THEN + 20, FREE, THIRD)


def unsent_from_address_of_tcp(scene):
    """The client by TCP sends once, and what it sent leaves once; then data leaves that nobody sent."""
    scene.allocate_by_tcp(THEN - 2_000_000, FREE)
    scene.by_tcp(THEN, TLS_CLIENT, SERVER, bytes(40))
    scene.leave(THEN + 20, FREE, THIRD, bytes(30))
    scene.leave(THEN + 30, FREE, THIRD)


def unsent_long_after_tls(scene):
    scene.by_tcp(THEN - 2_500_000, TLS_CLIENT, ("192.0.2.1", 5349), bytes(200))
    scene.leave(THEN, FREE, THIRD)


def longer_than_tls(scene):
    scene.by_tcp(THEN, TLS_CLIENT, ("192.0.2.1", 5349), bytes(40))
    scene.leave(THEN + 20, FREE, THIRD, bytes(80))


def unsent_beside_answers_by_tls(scene):
    """What leaves for a client by TLS carries nothing that leaves for a peer."""
    scene.by_tcp(THEN, ("192.0.2.1", 5349), TLS_CLIENT, bytes(200))
    scene.leave(THEN + 20, FREE, THIRD)


def relays_for_tcp(scene):
    """Two data in one segment, and data in two segments, of a client by TCP; the peer answers each."""
    scene.allocate_by_tcp(THEN - 2_000_000, FREE)
    scene.by_tcp(THEN, TLS_CLIENT, SERVER, bytes(2 * (4 + 100)))
    scene.leave(THEN + 20, FREE, THIRD, bytes(100))
    scene.leave(THEN + 30, FREE, THIRD, b"x" * 100)
    scene.by_tcp(THEN + 1_000, TLS_CLIENT, SERVER, bytes(1400))
    scene.by_tcp(THEN + 1_010, TLS_CLIENT, SERVER, bytes(3 * 1204 - 1400 - 1000))
    scene.by_tcp(THEN + 1_020, TLS_CLIENT, SERVER, bytes(1000))
    for number in range(3):
        scene.leave(THEN + 1_030 + number, FREE, THIRD, bytes([number]) * 1200)
        scene.sides[1].put(THEN + 2_000 + number, THIRD, FREE, bytes([number]) * 1200)


def relays_for_tls(scene):
    """A client that can't be read; its records are longer than its data."""
    for number in range(8):
        scene.by_tcp(THEN + 20 * number, TLS_CLIENT, ("192.0.2.1", 5349), bytes(29 + 4 + 50 + number))
        scene.leave(THEN + 20 * number + 10, FREE, THIRD, bytes([number]) * (50 + number))


def relays_for_dtls(scene):
    for number in range(4):
        record = bytes([23, 254, 253]) + bytes(10 + 8 + 4 + 50 + 8)
        scene.sides[0].put(THEN + 20 * number, TLS_CLIENT, SERVER, record)
        scene.leave(THEN + 20 * number + 10, FREE, THIRD, bytes([number]) * 50)


def relays_for_ipv6(scene):
    for number in range(4):
        scene.by_ipv6(THEN + 20 * number, 50000, 3478, bytes(4 + 50))
        scene.leave(THEN + 20 * number + 10, FREE, THIRD, bytes([number]) * 50)


def unsent_beside_ipv6(scene):
    relays_for_ipv6(scene)
    scene.leave(THEN + 100, FREE, THIRD)


def relays_from_tls_to_client(scene):
    """A client by TLS sends to the judged client's relayed address, inside of the host."""
    scene.by_tcp(THEN, TLS_CLIENT, ("192.0.2.1", 5349), bytes(29 + 36 + len(LEAKED)))
    scene.deliver(THEN + 10, scene.judged.endpoint, peer=FREE)


def data_for_peer_as_inner(scene):
    """What the judged client sends its peer is delivered to another client, too, as of its relayed address."""
    other = make_capture.Client(4, scene.sides)
    other.open(START + 1_300_000)
    scene.judged.to_peer(THEN, LEAKED)
    scene.deliver(THEN + 20, other.endpoint, peer=scene.judged.relayed)


def relays_from_judged_to_client(scene, to_other=True):
    """The judged client sends to another one's relayed address, inside of the host."""
    clients = [make_capture.Client(number, scene.sides) for number in (4, 6)]
    for number, client in enumerate(clients):
        client.peer = scene.judged.relayed
        client.open(START + 1_300_000 + 1_000 * number)
    sent = message(BINDING_TYPES["send"], scene.judged.transaction(), [(PEER, address(clients[0].relayed)), (DATA, LEAKED)])
    scene.sides[0].put(THEN, scene.judged.endpoint, SERVER, sent)
    scene.deliver(THEN + 20, clients[0 if to_other else 1].endpoint, peer=scene.judged.relayed)


def relays_from_judged_to_third(scene):
    """A third client is given that data."""
    relays_from_judged_to_client(scene, to_other=False)


def other_port_down_after_deletion(scene):
    """Data is told as of another port of the peer."""
    scene.release()
    scene.arrive(LEFT + 300_000)
    scene.deliver(LEFT + 300_010, scene.judged.endpoint, peer=(scene.judged.peer[0], 7001))


def other_port_up_after_deletion(scene):
    """Data is sent to another port of the peer."""
    scene.release()
    sent = message(BINDING_TYPES["send"], scene.judged.transaction(), [(PEER, address(scene.judged.peer)), (DATA, LEAKED)])
    scene.sides[0].put(LEFT + 300_000, scene.judged.endpoint, SERVER, sent)
    scene.leave(LEFT + 300_010, scene.judged.relayed, (scene.judged.peer[0], 7001))


def answers_before_twice(scene):
    """A client from before asks for a permission once, and two successes leave for it."""
    scene.before.renew(THEN)
    scene.before.count -= 1
    success = message(BINDING_TYPES["permission"] | SUCCESS, scene.before.transaction(), [], scene.before.key)
    scene.sides[0].put(THEN + 2_500_000, SERVER, scene.before.endpoint, success)


def answers_before(scene):
    """The client sends that request twice."""
    for moment in (THEN, THEN + 100):
        scene.before.renew(moment)
        scene.before.count -= 1


def to_stranger_after_deletion(scene):
    scene.release()
    scene.arrive(LEFT + 100_000)
    scene.deliver(LEFT + 100_010, STRANGER)


def unsent_up_after_deletion(scene):
    scene.release()
    scene.sides[1].put(LEFT + 300_000, scene.judged.relayed, scene.judged.peer, LEAKED)


def unsent_down_after_deletion(scene):
    scene.release()
    scene.deliver(LEFT + 300_000, scene.judged.endpoint)


def changed_after_deletion(scene):
    scene.release()
    scene.arrive(LEFT + 300_000)
    scene.deliver(LEFT + 300_010, scene.judged.endpoint, b"other data")


def thrice_after_deletion(scene):
    scene.release()
    scene.judged.from_peer(LEFT + 300_000, LEAKED, False)
    scene.deliver(LEFT + 300_020, scene.judged.endpoint)
    scene.deliver(LEFT + 300_030, scene.judged.endpoint)


def peer_as_own_address(scene):
    scene.arrive(THEN)
    scene.deliver(THEN + 10, scene.judged.endpoint, peer=("192.0.2.1", 55555))


def unsent_of_own_address(scene):
    scene.deliver(THEN + 10, scene.judged.endpoint, peer=("192.0.2.1", 55555))


def dtls_to_udp_client(scene):
    scene.sides[0].put(THEN, scene.judged.endpoint, SERVER, bytes([22, 254, 253]) + bytes(40))
    scene.sides[0].put(THEN + 10, SERVER, scene.judged.endpoint, bytes([23, 254, 253]) + bytes(40))


def mismatch_for_new_client(scene):
    """437 (Allocation Mismatch) to a client that has nothing."""
    new = make_capture.Client(6, scene.sides)
    id = new.transaction()
    scene.sides[0].put(THEN, new.endpoint, SERVER, message(BINDING_TYPES["allocate"], id, [(TRANSPORT, bytes([17, 0, 0, 0]))]))
    error = [(ERROR_CODE, bytes([0, 0, 4, 37]) + b"Mismatch")]
    scene.sides[0].put(THEN + 20, SERVER, new.endpoint, message(BINDING_TYPES["allocate"] | ERROR, id, error))


STRICT = ("--from-start", "--no-tcp")
FROM_START = ("--from-start",)
RELEASED = ("--released-ms", "1000")
# What the server does, and whether an audit has to report it.
BREACHES = (
    (nothing, False, ((), STRICT, RELEASED)),
    (ends_and_relays_on, False, (RELEASED, (*STRICT, *RELEASED))),
    (to_before, True, ((),)),
    (to_before_as_its_own, True, ((),)),
    (to_stranger, True, ((), STRICT)),
    (copy_to_before, True, ((),)),
    (copy_to_stranger, True, ((), STRICT)),
    (unsent_to_before, True, ((),)),
    (unsent_to_stranger, True, ((), STRICT)),
    (copy_from_free_port, True, ((), STRICT)),
    (copy_from_port_of_before, True, ((),)),
    (answers_before, False, ((),)),
    (answers_before_twice, True, ((),)),
    (copy_of_peer_from_free_port, True, ((), STRICT)),
    (copy_of_peer_beside_tls, True, ((), STRICT)),
    (unsent_from_free_port, True, ((), STRICT)),
    (copy_from_address_of_tcp, True, ((), STRICT)),
    (unsent_from_address_of_tcp, True, ((), STRICT)),
    (unsent_long_after_tls, True, ((), STRICT)),
    (longer_than_tls, True, ((), STRICT)),
    (unsent_beside_answers_by_tls, True, ((), STRICT)),
    (relays_for_tcp, False, ((), FROM_START)),
    (relays_for_tls, False, ((), FROM_START)),
    (relays_for_dtls, False, ((), FROM_START)),
    (relays_for_ipv6, False, ((), FROM_START)),
    (unsent_beside_ipv6, True, ((), STRICT)),
    (relays_from_tls_to_client, False, ((), FROM_START)),
    (data_for_peer_as_inner, True, ((), STRICT)),
    (relays_from_judged_to_client, False, ((), STRICT)),
    (relays_from_judged_to_third, True, ((), STRICT)),
    (other_port_down_after_deletion, True, (RELEASED, (*STRICT, *RELEASED))),
    (other_port_up_after_deletion, True, (RELEASED, (*STRICT, *RELEASED))),
    (to_stranger_after_deletion, True, ((), RELEASED, (*STRICT, *RELEASED))),
    (unsent_up_after_deletion, True, (RELEASED, (*STRICT, *RELEASED))),
    (unsent_down_after_deletion, True, (RELEASED, (*STRICT, *RELEASED))),
    (changed_after_deletion, True, (RELEASED, (*STRICT, *RELEASED))),
    (thrice_after_deletion, True, (RELEASED, (*STRICT, *RELEASED))),
    (peer_as_own_address, True, ((), STRICT)),
    (unsent_of_own_address, True, ((), STRICT)),
    (dtls_to_udp_client, True, (STRICT,)),
    (mismatch_for_new_client, True, ((), STRICT)),
)
CASES = [(breach, options, is_reported) for breach, is_reported, all_options in BREACHES for options in all_options]


def build(folder, breach, options):
    """Writes the captures, with policy and creds."""
    scene = Scene(folder, "--from-start" not in options)
    breach(scene)
    scene.close()
    (folder / "policy").write_text("turnaudit-policy 1\nlisten 192.0.2.1:3478\nrelay 192.0.2.1:49152-65535\n")
    (folder / "creds").write_text("".join(f"user{number}\texample.org\tsecret\n" for number in (0, 2, 4, 6)))
    return [folder / "client.pcapng", folder / "peer.pcapng"]
