"""The server of RFC 8656: one table for all clients, and whether an answer is one of its answers.

Part of the plain checker (tests/plain/checker.py says who uses it). It isn't the simulated server of tests/simulated.py, and
shares nothing with it. Messages are read by `stun`.
"""

from dataclasses import dataclass, field

from . import stun
from .reading import up_to

SECOND = 1_000_000_000


class Broken(Exception):
    """The rule that an answer breaks."""

    def __init__(self, rule):
        super().__init__(rule)
        self.rule = rule


def ask(holds, rule):
    if not holds:
        raise Broken(rule)


def told(value):
    """What a leaving message has to tell."""
    ask(value is not None, "R21")
    return value


@dataclass
class Allocation:
    relayed: tuple
    user: bytes
    transaction: bytes
    end: int
    permissions: dict = field(default_factory=dict)
    channels: dict = field(default_factory=dict)


@dataclass
class Answer:
    """An arrival, the departure that answers it, their messages, and the moment."""

    pair: tuple
    arrives: object
    leaves: object
    moment: int
    asked: object = None
    given: object = None


class Server:
    """Table by client and listen address."""

    def __init__(self, policy, keys):
        self.policy = policy
        self.keys = keys
        self.table = {}

    def usable(self, end, moment):
        return moment <= up_to(end + self.policy.grace)

    def usable_at(self, pair, moment):
        allocation = self.table.get(pair)
        return allocation if allocation and self.usable(allocation.end, moment) else None

    def held_by_another(self, pair, relayed, moment):
        """Whether another client's usable allocation has the address (RFC 8656, section 7.2)."""
        return any(
            other != pair and allocation.relayed == relayed and self.usable(allocation.end, moment)
            for other, allocation in self.table.items()
        )

    # What several answers ask.

    def user_key(self, message):
        """The user that a request is authentic by, and the key (RFC 8489, section 9.2.4)."""
        user, realm = message.first(stun.USERNAME), message.first(stun.REALM)
        if user is None or realm is None or not message.has(stun.NONCE):
            return None
        key = self.keys.get((user, realm), {}).get(message.algorithm())
        return (user, key) if key is not None and message.is_signed(key) else None

    def by_a_user(self, answer):
        found = self.user_key(answer.asked)
        ask(found is not None, "R2")
        return found

    def allocated(self, answer):
        allocation = self.table.get(answer.pair)
        ask(allocation is not None, "R4")
        ask(self.usable(allocation.end, answer.moment), "R5")
        return allocation

    def permitted(self, allocation, ip, moment):
        end = allocation.permissions.get(ip)
        ask(end is not None, "R6")
        ask(self.usable(end, moment), "R7")

    def bound(self, allocation, number, moment):
        binding = allocation.channels.get(number)
        ask(binding is not None, "R8")
        ask(self.usable(binding[1], moment), "R9")
        return binding[0]

    # Which answer it is.

    def act(self, client, listen, arrives, leaves, moment):
        """Changes the table by an answer, or tells the first rule that it breaks."""
        answer = Answer((client, listen), arrives, leaves, moment)
        from_client = (arrives.source, arrives.target) == (client, listen)
        to_client = (leaves.source, leaves.target) == (listen, client)
        from_peer = not from_client and self.policy.relays(arrives.target)
        to_peer = not to_client and self.policy.relays(leaves.source)
        ask(self.policy.listens(listen), "R1")
        answer.asked, answer.given = stun.message(arrives.payload), stun.message(leaves.payload)
        if from_client and to_client:
            self.respond(answer)
        elif from_client and to_peer:
            self.relay_up(answer)
        elif from_peer and to_client:
            self.relay_down(answer)
        else:
            raise Broken("R1")

    def respond(self, answer):
        asked, given = answer.asked, answer.given
        ask(given is not None, "R21")
        ask(asked is not None and asked.kind == stun.REQUEST and given.kind in (stun.SUCCESS, stun.ERROR), "R1")
        ask((asked.method, asked.transaction) == (given.method, given.transaction), "R1")
        if given.kind == stun.ERROR:
            return self.refuse(answer)
        usable = self.usable_at(answer.pair, answer.moment)
        repeats = usable is not None and usable.transaction == asked.transaction
        steps = {
            stun.BINDING: self.binding,
            stun.ALLOCATE: self.allocate_again if repeats else self.allocate,
            stun.REFRESH: self.refresh,
            stun.CREATE_PERMISSION: self.create_permission,
            stun.CHANNEL_BIND: self.channel_bind,
        }
        ask(asked.method in steps, "R1")
        return steps[asked.method](answer)

    def relay_up(self, answer):
        data = stun.channel_data(answer.arrives.payload)
        if answer.asked is not None and (answer.asked.kind, answer.asked.method) == (stun.INDICATION, stun.SEND):
            self.send(answer)
        else:
            ask(data is not None, "R1")
            self.channel_up(answer, data)

    def relay_down(self, answer):
        data = stun.channel_data(answer.leaves.payload)
        if answer.given is not None:
            ask((answer.given.kind, answer.given.method) == (stun.INDICATION, stun.DATA_METHOD), "R1")
            self.indicate(answer)
        else:
            ask(data is not None, "R21")
            self.channel_down(answer, data)

    # The answers.

    def binding(self, answer):
        ask(told(answer.given.address(stun.MAPPED)) == answer.arrives.source, "R17")

    def refuse(self, answer):
        asked, given, moment = answer.asked, answer.given, answer.moment
        code = told(given.error_code())
        allocation, usable = self.table.get(answer.pair), self.usable_at(answer.pair, moment)
        is_allocate = asked.method == stun.ALLOCATE
        if code in (401, 438):
            ask(given.has(stun.REALM) and given.has(stun.NONCE), "R19")
        elif code == 420:
            ask(given.has(stun.UNKNOWN_ATTRIBUTES), "R19")
        elif code == 437:
            ask(usable is not None if is_allocate else allocation is None or moment > allocation.end, "R19")
        elif code == 441:
            found = self.user_key(asked)
            ask(usable is not None and found is not None and found[0] != usable.user, "R19")
        elif code == 442:
            transport = asked.number_of(stun.TRANSPORT, 4, ">B")
            ask(is_allocate and transport is not None and transport != 17, "R19")

    def allocate(self, answer):
        asked, given, moment = answer.asked, answer.given, answer.moment
        user, key = self.by_a_user(answer)
        allocation = self.table.get(answer.pair)
        ask(allocation is None or moment > allocation.end, "R20")
        ask(asked.number_of(stun.TRANSPORT, 4, ">B") == 17, "R16")
        ask(asked.number_of(stun.FAMILY, 4, ">B") in (None, 1), "R16")
        relayed, lifetime, mapped = told(given.address(stun.RELAYED)), told(given.lifetime()), told(given.address(stun.MAPPED))
        ask(self.policy.relays(relayed) and not (asked.has(stun.EVEN_PORT) and relayed[1] % 2), "R14")
        ask(lifetime != 0, "R15")
        ask(mapped == answer.arrives.source, "R17")
        ask(given.is_signed(key), "R18")
        self.table[answer.pair] = Allocation(relayed, user, asked.transaction, up_to(moment + lifetime * SECOND))

    def allocate_again(self, answer):
        user, key = self.by_a_user(answer)
        allocation = self.table[answer.pair]
        ask(user == allocation.user, "R3")
        relayed, mapped = told(answer.given.address(stun.RELAYED)), told(answer.given.address(stun.MAPPED))
        ask(relayed == allocation.relayed, "R14")
        ask(mapped == answer.arrives.source, "R17")
        ask(answer.given.is_signed(key), "R18")

    def refresh(self, answer):
        user, key = self.by_a_user(answer)
        lifetime = told(answer.given.lifetime())
        asks_nothing = answer.asked.lifetime() == 0
        if self.usable_at(answer.pair, answer.moment) is None and asks_nothing and lifetime == 0:
            ask(answer.given.is_signed(key), "R18")
            self.table.pop(answer.pair, None)
            return
        allocation = self.allocated(answer)
        ask(user == allocation.user, "R3")
        ask(asks_nothing == (lifetime == 0), "R15")
        ask(answer.given.is_signed(key), "R18")
        if lifetime == 0:
            del self.table[answer.pair]
        else:
            allocation.end = up_to(answer.moment + lifetime * SECOND)

    def create_permission(self, answer):
        user, key = self.by_a_user(answer)
        allocation = self.allocated(answer)
        ask(user == allocation.user, "R3")
        peers = [stun.address_of(value) for value in answer.asked.all(stun.PEER)]
        ask(peers and None not in peers, "R12")
        ask(answer.given.is_signed(key), "R18")
        for ip, _ in peers:
            allocation.permissions[ip] = up_to(answer.moment + 300 * SECOND)

    def channel_bind(self, answer):
        user, key = self.by_a_user(answer)
        allocation, moment = self.allocated(answer), answer.moment
        ask(user == allocation.user, "R3")
        number = answer.asked.number_of(stun.CHANNEL_NUMBER, 4, ">H")
        ask(number is not None and 0x4000 <= number <= 0x4FFF, "R10")
        peer = answer.asked.address(stun.PEER)
        ask(peer is not None, "R12")
        ask(not any(moment <= end and (other == number) != (bound == peer) for other, (bound, end) in allocation.channels.items()), "R11")
        ask(answer.given.is_signed(key), "R18")
        allocation.channels[number] = (peer, up_to(moment + 600 * SECOND))
        allocation.permissions[peer[0]] = up_to(moment + 300 * SECOND)

    def send(self, answer):
        allocation, peer = self.allocated(answer), answer.asked.address(stun.PEER)
        ask(answer.leaves.source == allocation.relayed, "R14")
        ask(peer is not None and answer.leaves.target == peer, "R12")
        self.permitted(allocation, peer[0], answer.moment)
        ask(answer.asked.first(stun.DATA) == answer.leaves.payload, "R13")

    def channel_up(self, answer, data):
        allocation = self.allocated(answer)
        ask(answer.leaves.source == allocation.relayed, "R14")
        ask(answer.leaves.target == self.bound(allocation, data[0], answer.moment), "R12")
        ask(data[1] == answer.leaves.payload, "R13")

    def indicate(self, answer):
        peer, data = told(answer.given.address(stun.PEER)), told(answer.given.first(stun.DATA))
        allocation = self.allocated(answer)
        ask(answer.arrives.target == allocation.relayed, "R14")
        self.permitted(allocation, answer.arrives.source[0], answer.moment)
        ask(peer == answer.arrives.source, "R12")
        ask(data == answer.arrives.payload, "R13")

    def channel_down(self, answer, data):
        ask(data[2] <= 3, "R21")
        allocation = self.allocated(answer)
        ask(answer.arrives.target == allocation.relayed, "R14")
        self.permitted(allocation, answer.arrives.source[0], answer.moment)
        ask(self.bound(allocation, data[0], answer.moment) == answer.arrives.source, "R12")
        ask(data[1] == answer.arrives.payload, "R13")
