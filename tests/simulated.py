"""A simulated TURN server that keeps to RFC 8656, with random clients, peers, losses and clocks.

tests/random_captures.py and tests/edge_captures.py import it. It makes its messages by bench/make_capture.py, and shares no code
with turnaudit or with the plain checker of tests/plain.
"""

import hashlib
import pathlib
import random
import struct
import sys
from dataclasses import dataclass, field

sys.path.insert(0, str(pathlib.Path(__file__).resolve().parent.parent / "bench"))

import make_capture as stun
from make_capture import SERVER, address, message

BASE = 1_700_000_000_000_000_000
SECOND = 1_000_000_000
MICROSECOND = 1_000
SKEW = 500 * MICROSECOND
REALM = b"example.org"
USERS = [f"user{number}" for number in range(6)]
KEYS = {user: hashlib.md5(f"{user}:example.org:secret".encode()).digest() for user in USERS}
PEERS = [("203.0.113.1", 7000), ("203.0.113.1", 7001), ("203.0.113.2", 7000), ("203.0.113.3", 9000)]
RELAY_IP = "192.0.2.1"
FIRST_PORT = 49152
METHODS = stun.BINDING_TYPES
CREDENTIALS_ERRORS = (401, 438)


def client_address(client):
    return (f"198.51.100.{1 + client}", 40000)


def payload_of(data):
    return b"d%03d" % data


@dataclass
class Setting:
    """What a case is drawn with. Times are in nanoseconds."""

    seed: int
    clients: int
    ports: int
    client_interfaces: int
    peer_interfaces: int
    offsets: list
    jitter: int
    sequential: bool
    speed: tuple
    loss: float
    copies: float
    alphabet: int
    zero_success: bool
    errors: float

    @staticmethod
    def drawn(seed, draw):
        clients = draw.choice([1, 1, 2, 2, 3, 4])
        ports = draw.choice([1, 2, 2, 3, 6]) if clients > 1 else draw.choice([1, 1, 2])
        client_interfaces = draw.choice([1, 1, 1, 2])
        peer_interfaces = draw.choice([1, 1, 1, 2])
        offsets = [
            draw.randint(-450_000, 450_000) if draw.random() < 0.85 else draw.choice([-450_000, 450_000, 0])
            for _ in range(client_interfaces + peer_interfaces)
        ]
        return Setting(
            seed=seed,
            clients=clients,
            ports=ports,
            client_interfaces=client_interfaces,
            peer_interfaces=peer_interfaces,
            offsets=offsets,
            jitter=draw.choice([0, 0, 0, 20_000, 40_000]),
            sequential=draw.random() < 0.75,
            speed=draw.choice([(300, 3000), (1000, 20000), (1000, 60000)]),
            loss=draw.choice([0, 0.03, 0.1]),
            copies=draw.choice([0, 0.05, 0.2]),
            alphabet=draw.choice([1, 2, 3, 1000]),
            zero_success=draw.random() < 0.3,
            errors=draw.choice([0, 0, 0.03]),
        )


@dataclass
class Input:
    """A datagram to the server."""

    moment: int
    dropped: bool
    act_delay: int
    leave_delay: int
    pick: int
    error: int
    client: int = 0
    user: int = 0
    kind: str = ""
    transaction: int = 0
    mode: str = ""
    lifetime: int = 0
    peer: int = 0
    peers: list = field(default_factory=list)
    number: int = 0
    port: int = 0
    data: int = 0
    arrival: int = 0


class Clients:
    """What clients and peers send."""

    def __init__(self, seed):
        self.draw = random.Random(seed)
        self.setting = Setting.drawn(seed, self.draw)
        self.gaps = self.draw.choice([(5_000, 40_000), (5_000, 150_000), (20_000, 600_000), (100_000, 3_000_000)])
        self.count = self.draw.choice([20, 40, 80, 150])
        self.transactions = 0
        self.sent = 0
        self.believed = [False] * self.setting.clients

    def inputs(self):
        inputs = []
        moment = BASE
        for _ in range(self.count):
            moment = self.next_moment(moment)
            one = self.input_at(moment)
            inputs.append(one)
            if one.transaction and one.kind != "send" and self.draw.random() < self.setting.copies:
                inputs.append(self.copy_of(one))
        return sorted(inputs, key=lambda one: one.moment)

    def next_moment(self, moment):
        pause = self.draw.random()
        if pause < 0.08:
            return moment + self.draw.randint(1_000_000, 30_000_000)
        if pause < 0.085:
            return moment + self.draw.choice([310, 620, 1300]) * SECOND
        return moment + self.draw.randint(*self.gaps)

    def input_at(self, moment):
        draw, setting = self.draw, self.setting
        one = Input(
            moment=moment,
            dropped=draw.random() < setting.loss,
            act_delay=draw.randint(*setting.speed),
            leave_delay=draw.randint(*setting.speed),
            pick=draw.randrange(1000),
            error=draw.choice([400, 500, 508, 403, 486]) if draw.random() < setting.errors else 0,
        )
        one.client = draw.randrange(setting.clients)
        own = one.client % len(USERS)
        one.user = own if draw.random() < 0.98 else draw.randrange(len(USERS))
        self.fill(one, draw.random())
        return one

    def fill(self, one, chance):
        draw = self.draw
        has = self.believed[one.client]
        if chance < 0.33:
            one.kind, one.peer, one.port = "peer", draw.randrange(len(PEERS)), draw.randrange(self.setting.ports)
            one.data = self.next_data()
        elif chance < 0.34:
            one.kind, one.transaction = "binding", self.next_transaction()
        elif not has and chance < 0.75 or chance < 0.40:
            one.mode = draw.choice(["good"] * 12 + ["unauthenticated", "stale", "transport"])
            one.kind, one.transaction = "allocate", self.next_transaction()
            self.believed[one.client] = has or one.mode == "good"
        elif chance < 0.47:
            one.lifetime = 0 if draw.random() < 0.75 else 600
            one.kind, one.transaction = "refresh", self.next_transaction()
            self.believed[one.client] = has and one.lifetime > 0
        elif chance < 0.58:
            one.kind, one.transaction = "permission", self.next_transaction()
            one.peers = draw.sample(range(len(PEERS)), draw.choice([1, 1, 2]))
        elif chance < 0.66:
            one.kind, one.transaction = "channel", self.next_transaction()
            one.number, one.peer = 0x4000 + draw.randrange(3), draw.randrange(len(PEERS))
        elif chance < 0.84:
            one.kind, one.transaction = "send", self.next_transaction()
            one.peer, one.data = draw.randrange(len(PEERS)), self.next_data()
        else:
            one.kind, one.number, one.data = "channel data", 0x4000 + draw.randrange(3), self.next_data()

    def copy_of(self, one):
        draw = self.draw
        later = draw.choice([draw.randint(1000, 300_000), draw.randint(1000, 300_000), 500_000_000])
        again = Input(**{**vars(one), "moment": one.moment + later})
        again.dropped = draw.random() < self.setting.loss
        again.act_delay, again.leave_delay = draw.randint(*self.setting.speed), draw.randint(*self.setting.speed)
        again.pick = draw.randrange(1000)
        return again

    def next_transaction(self):
        self.transactions += 1
        return self.transactions

    def next_data(self):
        self.sent += 1
        return self.sent % self.setting.alphabet


@dataclass
class Seen:
    """A datagram as it is at the server."""

    moment: int
    interface: int
    source: tuple
    target: tuple
    payload: bytes
    way: str
    input: int


@dataclass
class Allocation:
    port: int
    user: int
    transaction: int
    until: int
    permissions: dict = field(default_factory=dict)
    channels: dict = field(default_factory=dict)


class Server:
    """Acts on each input in the order of the moments of its acts, and notes what is seen and what it did."""

    lifetime = 600
    """Of each allocation, in seconds."""

    def __init__(self, setting, inputs):
        self.setting = setting
        self.inputs = inputs
        self.allocations = {}
        self.seen = []
        # client, input, moment of the act, moment at which the answer leaves
        self.acts = []

    def run(self):
        plan = self.plan()
        for number, one in enumerate(self.inputs):
            self.arrive(number, one)
        for act, leaves, number in sorted(plan):
            for client in [c for c, allocation in self.allocations.items() if act > allocation.until]:
                del self.allocations[client]
            if not self.inputs[number].dropped:
                self.act_on(number, self.inputs[number], act, leaves)
        self.seen.sort(key=lambda one: one.moment)

    def plan(self):
        """When each input is acted on and answered, no two things at one moment."""
        used = set()

        def unused(moment):
            while moment in used:
                moment += 1
            used.add(moment)
            return moment

        busy = 0
        plan = []
        for number, one in enumerate(self.inputs):
            one.arrival = unused(one.moment)
            begin = max(one.arrival, busy) if self.setting.sequential else one.arrival
            act = begin + one.act_delay
            leaves = act + one.leave_delay
            if not one.dropped:
                busy = leaves
            plan.append((unused(act), unused(leaves), number))
        return plan

    def ends_of(self, client):
        """The client's address, and the listen address that it asks."""
        return client_address(client), SERVER

    def client_interface(self, client):
        return client % self.setting.client_interfaces

    def peer_interface(self, peer):
        return self.setting.client_interfaces + peer % self.setting.peer_interfaces

    def arrive(self, number, one):
        if one.kind == "peer":
            interface, source, target = self.peer_interface(one.peer), PEERS[one.peer], (RELAY_IP, FIRST_PORT + one.port)
        else:
            interface, (source, target) = self.client_interface(one.client), self.ends_of(one.client)
        self.seen.append(Seen(one.arrival, interface, source, target, request(one), "in", number))

    def act_on(self, number, one, act, leaves):
        answer = Answer(self, number, one, act, leaves)
        if one.kind == "peer":
            answer.from_peer()
        elif one.kind == "binding":
            answer.to_client(message(1 | stun.SUCCESS, transaction(one), [(stun.MAPPED, address(self.ends_of(one.client)[0]))]))
        elif one.kind in ("send", "channel data"):
            answer.to_peer()
        elif one.error:
            answer.error(one.error)
        elif one.kind == "allocate":
            answer.allocate()
        else:
            answer.of_allocation()


def transaction(one):
    kind = {"binding": b"bind", "send": b"send"}.get(one.kind, b"turn")
    return struct.pack(">II", 7, one.transaction) + kind


def request(one):
    """What an input carries."""
    if one.kind == "peer":
        return payload_of(one.data)
    if one.kind == "channel data":
        return struct.pack(">HH", one.number, 4) + payload_of(one.data)
    if one.kind == "binding":
        return message(1, transaction(one), [])
    if one.kind == "send":
        attributes = [(stun.PEER, address(PEERS[one.peer])), (stun.DATA, payload_of(one.data))]
        return message(METHODS["send"], transaction(one), attributes)
    attributes = {
        "allocate": [(stun.TRANSPORT, bytes([6 if one.mode == "transport" else 17, 0, 0, 0]))],
        "refresh": [(stun.LIFETIME, struct.pack(">I", one.lifetime))],
        "permission": [(stun.PEER, address(PEERS[peer])) for peer in one.peers],
        "channel": [
            (stun.CHANNEL_NUMBER, struct.pack(">HH", one.number, 0)),
            (stun.PEER, address(PEERS[one.peer])),
        ],
    }[one.kind]
    if one.mode == "unauthenticated":
        return message(METHODS[one.kind], transaction(one), attributes)
    named = [(stun.USERNAME, USERS[one.user].encode()), (stun.REALM, REALM), (stun.NONCE, b"nonce")]
    return message(METHODS[one.kind], transaction(one), attributes + named, KEYS[USERS[one.user]])


class Answer:
    """One act of the server on an input."""

    def __init__(self, server, number, one, act, leaves):
        self.server, self.number, self.one = server, number, one
        self.act, self.leaves = act, leaves
        self.allocation = server.allocations.get(one.client)

    def note(self, client, interface, source, target, payload):
        self.server.seen.append(Seen(self.leaves, interface, source, target, payload, "out", self.number))
        self.server.acts.append((client, self.number, self.act, self.leaves))

    def to_client(self, payload, client=None):
        client = self.one.client if client is None else client
        target, source = self.server.ends_of(client)
        self.note(client, self.server.client_interface(client), source, target, payload)

    def error(self, code):
        attributes = [(stun.ERROR_CODE, bytes([0, 0, code // 100, code % 100]) + b"no")]
        if code in CREDENTIALS_ERRORS:
            attributes += [(stun.REALM, REALM), (stun.NONCE, b"nonce")]
        self.to_client(message(METHODS[self.one.kind] | stun.ERROR, transaction(self.one), attributes))

    def success(self, attributes):
        key = KEYS[USERS[self.one.user]]
        self.to_client(message(METHODS[self.one.kind] | stun.SUCCESS, transaction(self.one), attributes, key))

    def allocated(self, port):
        self.success([
            (stun.RELAYED, address((RELAY_IP, port))),
            (stun.LIFETIME, struct.pack(">I", self.server.lifetime)),
            (stun.MAPPED, address(self.server.ends_of(self.one.client)[0])),
        ])

    def allocate(self):
        one, allocations = self.one, self.server.allocations
        refusal = {"unauthenticated": 401, "stale": 438, "transport": 442}.get(one.mode)
        if refusal:
            return self.error(refusal)
        if self.allocation:
            if (self.allocation.transaction, self.allocation.user) == (one.transaction, one.user):
                return self.allocated(self.allocation.port)
            return self.error(437)
        taken = {allocation.port for allocation in allocations.values()}
        free = [port for port in range(FIRST_PORT, FIRST_PORT + self.server.setting.ports) if port not in taken]
        if not free:
            return self.error(508)
        port = free[one.pick % len(free)]
        allocations[one.client] = Allocation(port, one.user, one.transaction, self.act + self.server.lifetime * SECOND)
        return self.allocated(port)

    def of_allocation(self):
        """Refresh, CreatePermission and ChannelBind."""
        one, allocation = self.one, self.allocation
        if not allocation:
            if one.kind == "refresh" and one.lifetime == 0 and self.server.setting.zero_success:
                return self.success([(stun.LIFETIME, bytes(4))])
            return self.error(437)
        if allocation.user != one.user:
            return self.error(441)
        if one.kind == "refresh":
            return self.refresh()
        if one.kind == "permission":
            for peer in one.peers:
                allocation.permissions[PEERS[peer][0]] = self.act + 300 * SECOND
            return self.success([])
        return self.bind()

    def refresh(self):
        if self.one.lifetime == 0:
            del self.server.allocations[self.one.client]
        else:
            self.allocation.until = self.act + self.one.lifetime * SECOND
        self.success([(stun.LIFETIME, struct.pack(">I", self.one.lifetime))])

    def bind(self):
        one, allocation = self.one, self.allocation
        live = {number: peer for number, (peer, until) in allocation.channels.items() if self.act <= until}
        taken = live.get(one.number, one.peer) != one.peer
        if taken or any(peer == one.peer and number != one.number for number, peer in live.items()):
            return self.error(400)
        allocation.channels = {number: bound for number, bound in allocation.channels.items() if number in live}
        allocation.channels[one.number] = (one.peer, self.act + 600 * SECOND)
        allocation.permissions[PEERS[one.peer][0]] = self.act + 300 * SECOND
        return self.success([])

    def to_peer(self):
        """Send and ChannelData, where the client may."""
        one, allocation = self.one, self.allocation
        if not allocation:
            return
        if one.kind == "send":
            peer, until = one.peer, allocation.permissions.get(PEERS[one.peer][0], 0)
        else:
            peer, until = allocation.channels.get(one.number, (0, 0))
        if self.act <= until:
            source, interface = (RELAY_IP, allocation.port), self.server.peer_interface(peer)
            self.note(one.client, interface, source, PEERS[peer], payload_of(one.data))

    def from_peer(self):
        """Data and ChannelData, where an allocation has the address and the peer a permission."""
        one, ip = self.one, PEERS[self.one.peer][0]
        for client, allocation in self.server.allocations.items():
            if allocation.port != FIRST_PORT + one.port or self.act > allocation.permissions.get(ip, 0):
                continue
            bound = [n for n, (peer, until) in allocation.channels.items() if peer == one.peer and self.act <= until]
            data = payload_of(one.data)
            if bound:
                self.to_client(struct.pack(">HH", bound[0], 4) + data, client)
            else:
                attributes = [(stun.PEER, address(PEERS[one.peer])), (stun.DATA, data)]
                indication = struct.pack(">II", 7, self.number) + b"data"
                self.to_client(message(METHODS["data"], indication, attributes), client)
