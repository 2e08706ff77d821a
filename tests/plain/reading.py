"""Policy, credentials, certificate and captures, of which turnaudit refuses none.

Part of the plain checker (tests/plain/checker.py says who uses it). Keys are made by `stun`; it reads pcapng by itself.
"""

import struct
from dataclasses import dataclass, field

from .stun import long_term_keys

GREATEST = 2**64 - 1


def up_to(moment):
    return min(moment, GREATEST)


def address(text):
    ip, port = text.split(":")
    return number_of_ip(ip), int(port)


def number_of_ip(text):
    return int.from_bytes(bytes(int(part) for part in text.split(".")), "big")


def text_of(endpoint):
    ip, port = endpoint
    return ".".join(str(part) for part in ip.to_bytes(4, "big")) + f":{port}"


@dataclass
class Policy:
    """Endpoints of the service, and tolerances in nanoseconds."""

    listen: list = field(default_factory=list)
    relay: list = field(default_factory=list)
    skew: int = 500_000
    skews: dict = field(default_factory=dict)
    grace: int = 1_000_000_000
    hold: int = 2_000_000_000

    def listens(self, endpoint):
        return endpoint in self.listen

    def relays(self, endpoint):
        return any(ip == endpoint[0] and low <= endpoint[1] <= high for ip, low, high in self.relay)

    def skew_for(self, interface):
        return self.skews.get(interface, self.skew)

    def serves(self, endpoint):
        return self.listens(endpoint) or self.relays(endpoint)


def read_policy(path):
    policy = Policy()
    for line in path.read_text().splitlines()[1:]:
        word, value = line.split(" ", 1)
        if word == "listen":
            policy.listen.append(address(value))
        elif word == "relay":
            ip, ports = value.split(":")
            low, high = ports.split("-")
            policy.relay.append((number_of_ip(ip), int(low), int(high)))
        elif word == "skew-of":
            interface, skew = value.split(" ")
            policy.skews[int(interface)] = int(skew) * 1_000
        else:
            name, unit = {"skew-us": ("skew", 1_000), "grace-ms": ("grace", 1_000_000), "hold-ms": ("hold", 1_000_000)}[word]
            setattr(policy, name, int(value) * unit)
    return policy


def read_credentials(path):
    """The keys of each user and realm."""
    keys = {}
    for line in path.read_bytes().split(b"\n")[:-1] if path else ():
        user, realm, password = line.split(b"\t")
        keys[user, realm] = long_term_keys(user, realm, password)
    return keys


@dataclass
class Event:
    """An event or a drop: its kind, the sightings that it names, and its key."""

    kind: str
    sights: tuple
    key: tuple


@dataclass
class Lane:
    client: tuple
    listen: tuple
    events: list = field(default_factory=list)


def read_certificate(text):
    """Lanes and drops, and the skew in nanoseconds of each interface that has one."""
    lanes, drops, skews = [], [], {}
    for line in text.splitlines()[1:-1]:
        kind, *words = line.split(" ")
        if kind == "skew":
            skews[int(words[0])] = up_to(int(words[1]) * 1_000)
            continue
        if kind == "lane":
            lanes.append(Lane(address(words[0]), address(words[1])))
            continue
        sights = tuple(tuple(int(part) for part in word.split(".")) for word in words[:-2])
        (drops if kind == "drop" else lanes[-1].events).append(Event(kind, sights, (int(words[-2]), int(words[-1]))))
    return lanes, drops, skews


@dataclass
class Sighting:
    """A captured datagram of the service."""

    name: tuple
    source: tuple
    target: tuple
    payload: bytes
    stamp: int
    arrives: bool


def packets_of(capture):
    """Number of the interface in the file, stamp in nanoseconds and bytes of each packet; and where these bytes begin."""
    at, order, first, described = 0, "<", 0, []
    while at < len(capture):
        if capture[at:at + 4] == b"\n\r\r\n":
            order = "<" if capture[at + 8:at + 12] == b"\x4d\x3c\x2b\x1a" else ">"
            first = len(described)
        kind, length = struct.unpack_from(order + "II", capture, at)
        body = at + 8
        if kind == 1:
            described.append(units_of(capture[body + 8:at + length - 4], order))
        elif kind == 6:
            interface, high, low, captured, _ = struct.unpack_from(order + "IIIII", capture, body)
            digits, offset = described[first + interface]
            stamp = (high << 32 | low) * 10 ** (9 - digits) + offset * 10**9
            yield first + interface, stamp, capture[body + 20:body + 20 + captured], body + 20
        at += length


def units_of(options, order):
    """The stamp's decimals and offset in seconds."""
    digits, offset, seen, at = 6, 0, set(), 0
    while at + 4 <= len(options):
        code, length = struct.unpack_from(order + "HH", options, at)
        if code == 0:
            break
        value = options[at + 4:at + 4 + length]
        if code == 9 and code not in seen:
            digits = value[0]
        if code == 14 and code not in seen:
            offset = struct.unpack(order + "q", value)[0]
        seen.add(code)
        at += 4 + length + -length % 4
    return digits, offset


def datagram_of(frame):
    """Source, target and where the payload begins and ends, of a whole UDP datagram over IPv4 and Ethernet; else None."""
    at = 14
    kind = frame[12:14]
    for _ in range(2):
        if kind in (b"\x81\x00", b"\x88\xa8"):
            kind = frame[at + 2:at + 4]
            at += 4
    if kind != b"\x08\x00" or len(frame) < at + 20:
        return None
    version, header = frame[at] >> 4, 4 * (frame[at] & 15)
    total, _, fragment, _, protocol = struct.unpack_from(">HHHBB", frame, at + 2)
    if version != 4 or header < 20 or protocol != 17 or fragment & 0x3FFF or total < header + 8:
        return None
    source_port, target_port, length = struct.unpack_from(">HHH", frame, at + header)
    if length < 8 or header + length > total:
        return None
    source, target = (int.from_bytes(frame[at + n:at + n + 4], "big") for n in (12, 16))
    return (source, source_port), (target, target_port), at + header + 8, at + header + length


def sightings_of(policy, captures):
    """Each interface's sightings in block order, by name."""
    found, counts = {}, {}
    for file, capture in enumerate(captures):
        for number, stamp, frame, _ in packets_of(capture):
            seen = datagram_of(frame)
            if seen is None or policy.serves(seen[0]) == policy.serves(seen[1]):
                continue
            source, target, begin, end = seen
            interface = 64 * file + number
            name = (interface, counts.get(interface, 0))
            counts[interface] = name[1] + 1
            found[name] = Sighting(name, source, target, frame[begin:end], stamp, policy.serves(target))
    return found
