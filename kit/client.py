"""A client of the server: it sends each message as a situation wants it, right or wrong."""

from __future__ import annotations

from dataclasses import dataclass

from kit import messages
from kit.messages import ALLOCATE, BINDING, CHANNEL_BIND, CREATE_PERMISSION, DATA, DATA_METHOD, INDICATION, NONCE, REALM, REFRESH, REQUEST
from kit.messages import SEND, USERNAME, XOR_PEER_ADDRESS, XOR_RELAYED_ADDRESS, Message, describe, encode, read_channel_data, read_message


class Blocked(Exception):
    """The server didn't do what the rest of the situation needs."""


@dataclass(frozen=True)
class User:
    """A user with the long-term credential."""

    name: str
    password: str
    realm: str

    @property
    def key(self) -> bytes:
        return messages.key_of(self.name, self.realm, self.password)


@dataclass
class Received:
    """Data of a peer as the client received it: by an indication, or on a channel."""

    data: bytes
    peer: tuple[str, int] | None = None
    channel: int | None = None


class Client:
    """One client address and port. Its allocation, if it has one, is at `relayed`."""

    def __init__(self, testbed, socket, user: User):
        self.testbed = testbed
        self.socket = socket
        self.endpoint = socket.endpoint
        self.user = user
        self.nonce: bytes | None = None
        self.relayed: tuple[str, int] | None = None
        self.inbox: list[bytes] = []

    # What is sent and received as it is.

    def send(self, payload: bytes) -> None:
        self.socket.send(payload, self.testbed.listen)

    def receive(self, seconds: float | None = None) -> bytes | None:
        """The next datagram of the server."""
        if self.inbox:
            return self.inbox.pop(0)
        received = self.socket.receive(self.testbed.patience if seconds is None else seconds)
        return received and received[0]

    def exchange(self, payload: bytes, seconds: float | None = None) -> Message | None:
        """Sends a request, and waits for the response with its transaction id; anything else stays in the inbox."""
        self.send(payload)
        return self.response_to(payload, seconds)

    def response_to(self, payload: bytes, seconds: float | None = None) -> Message | None:
        transaction = payload[8:20]
        for at, held in enumerate(self.inbox):
            message = read_message(held)
            if message and message.transaction == transaction:
                del self.inbox[at]
                return message
        end = self.testbed.now() + (self.testbed.patience if seconds is None else seconds)
        while (remaining := end - self.testbed.now()) > 0:
            received = self.socket.receive(remaining)
            if received is None:
                return None
            message = read_message(received[0])
            if message and message.transaction == transaction and message.message_class in (messages.SUCCESS, messages.ERROR):
                return message
            self.inbox.append(received[0])
        return None

    # Requests.

    def transaction(self) -> bytes:
        return self.testbed.chance.randbytes(12)

    def build(self, method: int, attributes=(), user: User | None = None, nonce: bytes | None = None, without=(), **how) -> bytes:
        """A signed request. `without` names attributes of the credentials that are missing."""
        user = user or self.user
        named = [(USERNAME, user.name.encode()), (REALM, user.realm.encode()), (NONCE, self.nonce if nonce is None else nonce)]
        kept = [(number, value) for number, value in named if number not in without and value is not None]
        return encode(method | REQUEST, self.transaction(), [*attributes, *kept], user.key, **how)

    def request(self, method: int, attributes=(), user: User | None = None, **how) -> Message | None:
        """Sends a request as a client does: unsigned if it has no nonce yet, and again with the nonce of a 401 or 438."""
        if self.nonce is None:
            response = self.exchange(encode(method | REQUEST, self.transaction(), attributes))
            if response is None or response.error not in (401, 438) or not self.take_nonce(response):
                return response
        response = self.exchange(self.build(method, attributes, user, **how))
        if response is not None and response.error in (401, 438) and self.take_nonce(response):
            response = self.exchange(self.build(method, attributes, user, **how))
        return response

    def take_nonce(self, response: Message) -> bool:
        """Whether an error response has another nonce, which the next requests use."""
        nonce = response.get(NONCE)
        if nonce is None or nonce == self.nonce:
            return False
        self.nonce = nonce
        return True

    def binding(self, *attributes) -> Message | None:
        """A Binding request without credentials."""
        return self.exchange(encode(BINDING | REQUEST, self.transaction(), attributes))

    def challenge(self) -> None:
        """Gets a nonce (RFC 8489, section 9.2.3)."""
        response = self.exchange(encode(ALLOCATE | REQUEST, self.transaction(), [messages.transport()]))
        if response is None or not self.take_nonce(response):
            raise Blocked(f"an Allocate without credentials has to get 401 with a NONCE, it got: {describe(response)}")

    def allocate(self, *attributes, user: User | None = None) -> Message:
        """Makes an allocation; the situation ends if the server refuses."""
        response = self.request(ALLOCATE, [messages.transport(), *attributes], user)
        if response is None or not response.is_success:
            raise Blocked(f"an Allocate for UDP has to succeed; it got: {describe(response)}")
        if response.address(XOR_RELAYED_ADDRESS) is None or response.lifetime is None:
            raise Blocked("the success response to an Allocate has to have an IPv4 XOR-RELAYED-ADDRESS, and LIFETIME")
        self.relayed = response.address(XOR_RELAYED_ADDRESS)
        return response

    def refresh(self, seconds: int | None = None, user: User | None = None) -> Message | None:
        return self.request(REFRESH, [] if seconds is None else [messages.lifetime(seconds)], user)

    def create_permission(self, *peers, user: User | None = None) -> Message | None:
        return self.request(CREATE_PERMISSION, [messages.peer_address(endpoint_of(peer)) for peer in peers], user)

    def bind_channel(self, number: int, peer, user: User | None = None) -> Message | None:
        attributes = [messages.channel_number(number), messages.peer_address(endpoint_of(peer))]
        return self.request(CHANNEL_BIND, attributes, user)

    def permit(self, *peers) -> None:
        """CreatePermission; the situation ends if the server refuses."""
        response = self.create_permission(*peers)
        if response is None or not response.is_success:
            raise Blocked(f"a CreatePermission has to succeed, it got: {describe(response)}")

    def bind(self, number: int, peer) -> None:
        """ChannelBind; the situation ends if the server refuses."""
        response = self.bind_channel(number, peer)
        if response is None or not response.is_success:
            raise Blocked(f"a ChannelBind of 0x{number:04x} has to succeed, it got: {describe(response)}")

    # Data.

    def send_to(self, peer, data: bytes, *more) -> None:
        """A Send indication (RFC 8656, section 11.1)."""
        attributes = [messages.peer_address(endpoint_of(peer)), (DATA, data), *more]
        self.send(encode(SEND | INDICATION, self.transaction(), attributes))

    def send_on(self, number: int, data: bytes, padding: int = 0) -> None:
        """A ChannelData message (RFC 8656, section 12.5)."""
        self.send(messages.channel_data(number, data, padding))

    def next_data(self, seconds: float | None = None) -> Received | None:
        """The next data of a peer; other datagrams are skipped. With 0 seconds only what is there already counts."""
        end = self.testbed.now() + (self.testbed.patience if seconds is None else seconds)
        while (payload := self.receive(max(0.0, end - self.testbed.now()))) is not None:
            on_channel = read_channel_data(payload)
            if on_channel:
                return Received(on_channel[1], channel=on_channel[0])
            message = read_message(payload)
            if message and message.kind == DATA_METHOD | INDICATION:
                return Received(message.get(DATA) or b"", peer=message.address(XOR_PEER_ADDRESS))
        return None

    def receives(self, data: bytes, peer=None, channel: int | None = None) -> None:
        """Checks that the next data is this, by an indication from the peer, or on the channel."""
        got = self.next_data()
        what = f"the client receives {len(data)} bytes of a peer" + (f" on channel 0x{channel:04x}" if channel else "")
        if got is None:
            self.testbed.check(False, what, "nothing came")
        elif got.data != data:
            self.testbed.check(False, what, f"other data came, {len(got.data)} bytes")
        elif channel is not None and got.channel != channel:
            came = "in a Data indication" if got.channel is None else f"on channel 0x{got.channel:04x}"
            self.testbed.check(False, what, f"it came {came}")
        elif peer is not None and got.channel is None and got.peer != endpoint_of(peer):
            self.testbed.check(False, what, f"it came with another peer, {got.peer and got.peer[0]}:{got.peer and got.peer[1]}")
        else:
            self.testbed.check(True, what)

    def receives_nothing(self) -> None:
        """Checks that no data of a peer comes for a while."""
        got = self.next_data(self.testbed.quiet)
        self.testbed.check(got is None, "no data of a peer reaches the client", f"{len(got.data) if got else 0} bytes came")


class Peer:
    """One peer's address and port."""

    def __init__(self, testbed, socket):
        self.testbed = testbed
        self.socket = socket
        self.endpoint = socket.endpoint

    def send_to(self, client: Client, data: bytes) -> None:
        """A datagram to the client's relayed transport address."""
        self.socket.send(data, client.relayed)

    def receives(self, data: bytes, client: Client | None = None) -> None:
        """Checks that the next datagram is this, and comes from the relayed transport address."""
        got = self.socket.receive(self.testbed.patience)
        what = f"the peer receives {len(data)} bytes"
        if got is None:
            self.testbed.check(False, what, "nothing came")
        elif got[0] != data:
            self.testbed.check(False, what, f"other data came, {len(got[0])} bytes")
        elif client is not None and got[1] != client.relayed:
            self.testbed.check(False, what, f"it came from {got[1][0]}:{got[1][1]}, which isn't the relayed address")
        else:
            self.testbed.check(True, what)

    def receives_nothing(self) -> None:
        """Checks that nothing is relayed to the peer for a while."""
        got = self.socket.receive(self.testbed.quiet)
        self.testbed.check(got is None, "no data reaches the peer", f"{len(got[0]) if got else 0} bytes came")


def endpoint_of(peer) -> tuple[str, int]:
    """A peer, or an endpoint that no socket has."""
    return peer.endpoint if isinstance(peer, Peer) else peer
