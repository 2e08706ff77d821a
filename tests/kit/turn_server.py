#!/usr/bin/env python3
"""A TURN server that keeps to RFC 8656 and RFC 8489, and that can be made to break one rule.

    tests/kit/turn_server.py LISTEN RELAY_LOW RELAY_HIGH REALM USER PASSWORD [OTHER_USER OTHER_PASSWORD] [--break NAME]

tests/kit/broken_servers.py calls it in a net without sockets, and tests/kit/real_runs.py starts it as a program. `FAULTS` of
tests/kit/faults.py names what it can break. It has neither an IPv6 address nor another transport than UDP.
"""

from __future__ import annotations

import argparse
import hmac
import pathlib
import select
import signal
import socket
import struct
import sys
import time
from dataclasses import dataclass, field

sys.path.insert(0, str(pathlib.Path(__file__).resolve().parent.parent.parent))

from kit import messages as stun  # noqa: E402
from kit.messages import Message, encode, key_of, read_channel_data, read_message, xor_address  # noqa: E402

DEFAULT, MAXIMUM, PERMISSION, CHANNEL, RESERVATION = 600, 3600, 300, 600, 30
NONCE = b"f00d0001"
MOST_PEERS = 60
# What it knows of the comprehension-required attributes.
KNOWN = {
    *(stun.USERNAME, stun.REALM, stun.NONCE, stun.MESSAGE_INTEGRITY, stun.MESSAGE_INTEGRITY_SHA256),
    *(stun.ERROR_CODE, stun.UNKNOWN_ATTRIBUTES),
    *(stun.CHANNEL_NUMBER, stun.LIFETIME, stun.XOR_PEER_ADDRESS, stun.DATA),
    *(stun.REQUESTED_ADDRESS_FAMILY, stun.REQUESTED_TRANSPORT, stun.EVEN_PORT, stun.RESERVATION_TOKEN),
}


class Refused(Exception):
    """An error response: its code, and attributes."""

    def __init__(self, code: int, *attributes):
        super().__init__(code)
        self.code, self.attributes = code, attributes


@dataclass
class Sent:
    """A datagram that the server sends, after a delay in seconds."""

    source: tuple
    target: tuple
    payload: bytes
    delay: float = 0.0


@dataclass
class Allocation:
    relayed: tuple
    user: str
    transaction: bytes
    until: float
    permissions: dict[str, float] = field(default_factory=dict)
    channels: dict[int, tuple[tuple, float]] = field(default_factory=dict)


def signed_part(payload: bytes) -> tuple[list[tuple[int, bytes]], int | None, bytes, bytes]:
    """The attributes that count (RFC 8489, sections 14.5, 14.6), and of the deciding integrity its type, its value, and what it covers."""
    message, kept, at, deciding = read_message(payload), [], 20, (None, b"", b"")
    for number, value in message.attributes:
        after = deciding[0]
        if after is None or after == stun.MESSAGE_INTEGRITY and number == stun.MESSAGE_INTEGRITY_SHA256:
            if number in (stun.MESSAGE_INTEGRITY, stun.MESSAGE_INTEGRITY_SHA256):
                covered = stun.encode_head(message.kind, at - 20 + 4 + len(value), message.transaction) + payload[20:at]
                deciding = (number, value, covered)
            else:
                kept.append((number, value))
        at += 4 + len(value) + -len(value) % 4
    return kept, *deciding


class TurnServer:
    """The server: `receive` is called for each datagram, and returns those that it sends."""

    def __init__(self, listen: tuple, relay: tuple[int, int], realm: str, users: dict[str, str], broken: str = ""):
        self.listen, self.relay, self.realm, self.users, self.broken = listen, relay, realm, users, broken
        self.allocations: dict[tuple, Allocation] = {}
        self.reserved: dict[bytes, tuple[int, float]] = {}
        self.now = 0.0
        self.next_port = relay[0]
        self.count = 0

    def breaks(self, name: str) -> bool:
        return self.broken == name

    def receive(self, now: float, source: tuple, target: tuple, payload: bytes) -> list[Sent]:
        self.now = now
        if self.breaks("responds_to_nothing"):
            return []
        if not self.breaks("allocation_never_ends"):
            self.allocations = {client: allocation for client, allocation in self.allocations.items() if allocation.until > now}
        self.reserved = {token: (port, until) for token, (port, until) in self.reserved.items() if until > now}
        if target != self.listen:
            return self.from_peer(source, target, payload)
        if payload[:1] and 0x40 <= payload[0] <= 0x7F:
            return self.channel_data(source, payload)
        message = read_message(payload)
        if message is None:
            return self.to_malformed(source, payload)
        if message.message_class == stun.REQUEST and message.method in (1, 3, 4, 8, 9):
            return self.request(source, message, payload)
        if message.kind == stun.SEND | stun.INDICATION:
            return self.send(source, message)
        if message.kind == stun.BINDING | stun.INDICATION and self.breaks("responds_to_indications"):
            return [self.success(source, message, [(stun.XOR_MAPPED_ADDRESS, xor_address(source))], None, b"")]
        return []

    def to_malformed(self, source, payload: bytes) -> list[Sent]:
        if not self.breaks("responds_to_malformed") or len(payload) < 20:
            return []
        return [Sent(self.listen, source, encode(stun.BINDING | stun.ERROR, payload[8:20], [self.error_code(400)]))]

    # Requests and their responses.

    def request(self, source, message: Message, payload: bytes) -> list[Sent]:
        attributes, signature, digest, covered = signed_part(payload)
        request = Message(message.kind, message.transaction, message.attributes if self.breaks("reads_past_the_integrity") else attributes)
        key = None
        try:
            if request.method != stun.BINDING:
                key = self.authenticate(request, signature, digest, covered)
            unknown = sorted({number for number, _ in request.attributes if number < 0x8000 and number not in KNOWN})
            if unknown and not self.breaks("ignores_unknown_attributes"):
                raise Refused(420, (stun.UNKNOWN_ATTRIBUTES, b"".join(struct.pack(">H", number) for number in unknown)))
            answers = {1: self.binding, 3: self.allocate, 4: self.refresh, 8: self.create_permission, 9: self.channel_bind}
            attributes = answers[request.method](source, request)
        except Refused as refused:
            return self.refuse(source, request, refused)
        if self.breaks("responds_by_another_method") and request.method == stun.REFRESH:
            request = Message(stun.CREATE_PERMISSION, request.transaction, request.attributes)
        responses = [self.success(source, request, attributes, key, signature)]
        if self.breaks("responds_twice") and request.method == stun.BINDING:
            responses *= 2
        if self.breaks("responds_late") and request.method == stun.REFRESH:
            responses[0].delay = 3.0
        if self.breaks("sends_unasked") and request.method == stun.CREATE_PERMISSION:
            peer = request.address(stun.XOR_PEER_ADDRESS)
            responses.append(Sent(self.allocations[source].relayed, peer, b"what nobody sent", 0.05))
        return responses

    def refuse(self, source, request: Message, refused: Refused) -> list[Sent]:
        if self.breaks("is_silent_on_errors") and refused.code not in (401, 438):
            return []
        code = refused.code
        if self.breaks("says_500") and code not in (401, 438):
            code = 500
        challenge = [(stun.REALM, self.realm.encode()), (stun.NONCE, NONCE)] if code in (401, 438) else []
        if self.breaks("challenges_without_nonce"):
            challenge = challenge[:1]
        attributes = [self.error_code(code), *challenge, *refused.attributes]
        return [Sent(self.listen, source, encode(request.method | stun.ERROR, request.transaction, attributes))]

    def error_code(self, code: int) -> tuple[int, bytes]:
        return stun.ERROR_CODE, bytes([0, 0, code // 100, code % 100]) + stun.REASONS[code].encode()

    def success(self, source, request: Message, attributes, key, signature) -> Sent:
        if self.breaks("signs_nothing"):
            key = None
        names = ("sha256",) if signature == stun.MESSAGE_INTEGRITY_SHA256 else ("sha1",)
        return Sent(self.listen, source, encode(request.method | stun.SUCCESS, request.transaction, attributes, key, names))

    def authenticate(self, request: Message, signature, digest: bytes, covered: bytes) -> bytes:
        """The key of the request's user (RFC 8489, section 9.2.4)."""
        if signature is None:
            raise Refused(401)
        user, realm, nonce = (request.get(number) for number in (stun.USERNAME, stun.REALM, stun.NONCE))
        if None in (user, realm, nonce):
            raise Refused(400)
        name = user.decode(errors="replace")
        if self.breaks("any_password"):
            return key_of(name, self.realm, self.users.get(name, ""))
        if name not in self.users or realm != self.realm.encode():
            raise Refused(401)
        key = key_of(name, self.realm, self.users[name])
        wanted = hmac.new(key, covered, "sha1" if signature == stun.MESSAGE_INTEGRITY else "sha256").digest()
        if not hmac.compare_digest(wanted, digest):
            raise Refused(401)
        if nonce != NONCE and not self.breaks("any_nonce"):
            raise Refused(438)
        return key

    def binding(self, source, request: Message):
        if self.breaks("maps_another_port"):
            source = (source[0], source[1] ^ 1)
        return [(stun.XOR_MAPPED_ADDRESS, xor_address(source))]

    def lifetime_of(self, request: Message) -> int:
        requested = request.lifetime
        if self.breaks("lifetime_as_requested") and requested is not None:
            return requested
        return DEFAULT if requested is None else max(DEFAULT, min(requested, MAXIMUM))

    def allocate(self, source, request: Message):
        user = request.get(stun.USERNAME).decode()
        have = self.allocations.get(source)
        if have and not self.breaks("allocates_again"):
            if have.transaction != request.transaction or have.user != user:
                raise Refused(437)
            return self.granted(source, have, round(have.until - self.now), None)
        self.check_allocate(request)
        port, token = self.port_for(request)
        lasts = self.lifetime_of(request)
        allocation = Allocation((self.listen[0], port), user, request.transaction, self.now + lasts)
        if self.breaks("keeps_permissions") and have is None and source in getattr(self, "last", {}):
            allocation.permissions = self.last[source]
        self.allocations[source] = allocation
        return self.granted(source, allocation, lasts, token)

    def granted(self, source, allocation: Allocation, lasts: int, token: bytes | None):
        relayed = (allocation.relayed[0], allocation.relayed[1])
        addresses = [(stun.XOR_RELAYED_ADDRESS, xor_address(relayed)), (stun.XOR_MAPPED_ADDRESS, xor_address(source))]
        return [*addresses, stun.lifetime(lasts), *([(stun.RESERVATION_TOKEN, token)] if token else [])]

    def check_allocate(self, request: Message) -> None:
        """What is refused, in the order of RFC 8656, section 7.2."""
        protocol = request.get(stun.REQUESTED_TRANSPORT)
        if protocol is None or len(protocol) != 4:
            raise Refused(400)
        if protocol[0] != stun.UDP and not self.breaks("any_transport"):
            raise Refused(442)
        token, even = request.get(stun.RESERVATION_TOKEN), request.get(stun.EVEN_PORT)
        family, additional = request.get(stun.REQUESTED_ADDRESS_FAMILY), request.get(stun.ADDITIONAL_ADDRESS_FAMILY)
        if token is not None and (even is not None or family is not None or additional is not None):
            raise Refused(400)
        if token is not None and token not in self.reserved:
            raise Refused(508)
        if family is not None and family[:1] != bytes([stun.IPV4]) and not self.breaks("any_family"):
            raise Refused(440)
        if additional is not None and (additional[:1] == bytes([stun.IPV4]) or family is not None):
            raise Refused(400)

    def port_for(self, request: Message) -> tuple[int, bytes | None]:
        """A port that nobody has, and a token if the next one is reserved."""
        token, even = request.get(stun.RESERVATION_TOKEN), request.get(stun.EVEN_PORT)
        if token is not None:
            return self.reserved.pop(token)[0], None
        used = {allocation.relayed[1] for allocation in self.allocations.values()} | {port for port, _ in self.reserved.values()}
        if self.breaks("grants_one_address_twice"):
            used = set()
        is_reserving = even is not None and bool(even[0] & 0x80)
        low, high = self.relay
        count = high - low + 1
        for port in (low + (self.next_port - low + number) % count for number in range(count)):
            is_even = even is None or port % 2 == 0 or self.breaks("odd_ports")
            if port not in used and is_even and (not is_reserving or port + 1 <= high and port + 1 not in used):
                break
        else:
            raise Refused(508)
        if not self.breaks("grants_one_address_twice"):
            self.next_port = port + 1
        if not is_reserving:
            return port, None
        self.count += 1
        token = b"rsv%05d" % self.count
        self.reserved[token] = (port + 1, self.now + RESERVATION)
        return port, token

    def allocation_of(self, source, request: Message) -> Allocation:
        """The allocation that a request is for (RFC 8656, section 5)."""
        allocation = self.allocations.get(source)
        if allocation is None:
            raise Refused(437)
        if allocation.user != request.get(stun.USERNAME).decode() and not self.breaks("any_user"):
            raise Refused(441)
        return allocation

    def refresh(self, source, request: Message):
        allocation = self.allocation_of(source, request)
        family = request.get(stun.REQUESTED_ADDRESS_FAMILY)
        if family is not None and family[:1] != bytes([stun.IPV4]):
            raise Refused(443)
        if request.lifetime == 0:
            if self.breaks("deletes_nothing"):
                return [stun.lifetime(0)]
            self.last = {source: allocation.permissions}
            del self.allocations[source]
            return [stun.lifetime(600 if self.breaks("says_it_lasts") else 0)]
        lasts = self.lifetime_of(request)
        if not self.breaks("refreshes_nothing"):
            allocation.until = self.now + lasts
        if self.breaks("refresh_renews_permissions"):
            self.permit(allocation, allocation.permissions)
        return [] if self.breaks("says_no_lifetime") else [stun.lifetime(lasts)]

    def peers_of(self, request: Message) -> list[tuple]:
        values = request.get_all(stun.XOR_PEER_ADDRESS)
        if any(len(value) == 20 and value[1] == stun.IPV6 for value in values):
            raise Refused(443)
        peers = [stun.read_address(value) for value in values]
        if not peers or None in peers:
            if self.breaks("any_peer"):
                return []
            raise Refused(400)
        return peers

    def permit(self, allocation: Allocation, addresses) -> None:
        lasts = 10**9 if self.breaks("permission_never_ends") else PERMISSION
        allocation.permissions.update({address: self.now + lasts for address in addresses})

    def create_permission(self, source, request: Message):
        allocation = self.allocation_of(source, request)
        peers = self.peers_of(request)
        if len(peers) > MOST_PEERS:
            raise Refused(508)
        self.permit(allocation, [peer[0] for peer in peers[:1 if self.breaks("first_peer_alone") else None]])
        return []

    def channel_bind(self, source, request: Message):
        allocation = self.allocation_of(source, request)
        value = request.get(stun.CHANNEL_NUMBER)
        if value is None or len(value) != 4:
            raise Refused(400)
        number = struct.unpack(">H", value[:2])[0]
        peer = (self.peers_of(request) or [None])[0]
        if not 0x4000 <= number <= 0x4FFF and not self.breaks("any_channel_number"):
            raise Refused(400)
        bound = self.channels_of(allocation)
        if any((have == number) != (to == peer) for have, to in bound.items()) and not self.breaks("any_channel"):
            raise Refused(400)
        lasts = 10**9 if self.breaks("channel_never_ends") else CHANNEL
        allocation.channels[number] = (peer, self.now + lasts)
        if not self.breaks("channel_permits_nobody"):
            self.permit(allocation, [peer[0]])
        return []

    def channels_of(self, allocation: Allocation) -> dict[int, tuple]:
        return {number: peer for number, (peer, until) in allocation.channels.items() if until > self.now}

    # Data.

    def is_permitted(self, allocation: Allocation, address: str) -> bool:
        return self.breaks("permits_everybody") or allocation.permissions.get(address, 0) > self.now

    def allocation_for_data(self, source) -> Allocation | None:
        return self.allocations.get(source)

    def send(self, source, message: Message) -> list[Sent]:
        allocation, data = self.allocation_for_data(source), message.get(stun.DATA)
        peer = message.address(stun.XOR_PEER_ADDRESS)
        is_known = all(number >= 0x8000 or number in KNOWN for number, _ in message.attributes)
        if allocation is None or data is None or peer is None or not is_known and not self.breaks("ignores_unknown_attributes"):
            return []
        if not self.is_permitted(allocation, peer[0]):
            return []
        if self.breaks("permission_is_for_port") and peer[1] != 7000:
            return []
        return [self.to_peer(allocation, peer, data)]

    def to_peer(self, allocation: Allocation, peer, data: bytes) -> Sent:
        if self.breaks("truncates_data"):
            data = data[:1000]
        relayed = allocation.relayed
        if self.breaks("relays_from_another_port"):
            relayed = (relayed[0], relayed[1] + 1)
        return Sent(relayed, peer, data)

    def channel_data(self, source, payload: bytes) -> list[Sent]:
        allocation, read = self.allocation_for_data(source), read_channel_data(payload)
        if self.breaks("relays_padding") and read:
            read = (read[0], payload[4:])
        if allocation is None or read is None:
            return []
        number, data = read
        peer = self.channels_of(allocation).get(number)
        if peer is None and self.breaks("relays_on_any_channel") and allocation.permissions:
            peer = (sorted(allocation.permissions)[0], 7000)
        return [self.to_peer(allocation, peer, data)] if peer else []

    def from_peer(self, source, target, payload: bytes) -> list[Sent]:
        for client, allocation in self.allocations.items():
            if allocation.relayed == target and self.is_permitted(allocation, source[0]):
                return [Sent(self.listen, client, self.data_message(allocation, source, payload))]
        return []

    def data_message(self, allocation: Allocation, peer, data: bytes) -> bytes:
        for number, to in self.channels_of(allocation).items():
            if to == peer and not self.breaks("sends_indications_alone"):
                return stun.channel_data(number, data)
        if self.breaks("sends_on_no_channel"):
            return stun.channel_data(0x4ABC, data)
        if self.breaks("names_another_peer"):
            peer = (peer[0], peer[1] ^ 1)
        self.count += 1
        return encode(stun.DATA_METHOD | stun.INDICATION, struct.pack(">QI", 0, self.count), [stun.peer_address(peer), (stun.DATA, data)])


def serve(server: TurnServer) -> None:
    """Runs the server with sockets: one to listen, and one for each allocation."""

    def opened(endpoint: tuple) -> socket.socket:
        bound = socket.socket(socket.AF_INET, socket.SOCK_DGRAM)
        bound.bind(endpoint)
        return bound

    sockets = {server.listen: opened(server.listen)}
    pending: list[tuple[float, Sent]] = []
    while True:
        seconds = max(0.0, min((moment for moment, _ in pending), default=time.monotonic() + 60) - time.monotonic())
        ready, _, _ = select.select(list(sockets.values()), [], [], seconds)
        for readable in ready:
            payload, source = readable.recvfrom(65535)
            for sent in server.receive(time.monotonic(), source, readable.getsockname(), payload):
                pending.append((time.monotonic() + sent.delay, sent))
        wanted = {allocation.relayed for allocation in server.allocations.values()}
        for endpoint in wanted - sockets.keys():
            sockets[endpoint] = opened(endpoint)
        due = [sent for moment, sent in pending if moment <= time.monotonic()]
        pending = [(moment, sent) for moment, sent in pending if sent not in due]
        for sent in due:
            if sent.source in sockets:
                sockets[sent.source].sendto(sent.payload, sent.target)
        for endpoint in sockets.keys() - wanted - {server.listen}:
            sockets.pop(endpoint).close()


def main() -> None:
    parser = argparse.ArgumentParser(description=__doc__, formatter_class=argparse.RawDescriptionHelpFormatter)
    parser.add_argument("listen")
    parser.add_argument("relay", nargs=2, type=int)
    parser.add_argument("realm")
    parser.add_argument("users", nargs="+")
    parser.add_argument("--break", dest="broken", default="")
    options = parser.parse_args()
    signal.signal(signal.SIGTERM, lambda *_: sys.exit(0))
    address, _, port = options.listen.partition(":")
    users = dict(zip(options.users[::2], options.users[1::2]))
    serve(TurnServer((address, int(port)), tuple(options.relay), options.realm, users, options.broken))


if __name__ == "__main__":
    main()
