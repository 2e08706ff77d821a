"""Captures of rules that the stored ones don't show, written byte by byte for tests/explain.py."""

import hashlib
import hmac
import struct

SERVER, CLIENT, OTHER, PEER = ("192.0.2.1", 3478), ("198.51.100.7", 40000), ("198.51.100.8", 40000), ("203.0.113.9", 7000)
RELAYED, RELAYED2 = ("192.0.2.1", 50000), ("192.0.2.1", 50001)
COOKIE = 0x2112A442
USER, REALM, PASSWORD, NONCE = b"user", b"realm", b"pass", b"nonce"
POLICY = "turnaudit-policy 1\nlisten 192.0.2.1:3478\nrelay 192.0.2.1:49152-65535\n"
USERS = "user\trealm\tpass\n"
# What would turn a terminal's colours, hide a line, or be markup.
NASTY = b"\x1b[31mred\x07\"<script>\xff\xc3\xbc\xe2\x80\xae"


def ip(text):
    return bytes(int(part) for part in text.split("."))


def attribute(kind, value):
    return struct.pack(">HH", kind, len(value)) + value + bytes(-len(value) % 4)


def address(kind, end):
    host = struct.unpack(">I", ip(end[0]))[0] ^ COOKIE
    return attribute(kind, struct.pack(">BBHI", 0, 1, end[1] ^ (COOKIE >> 16), host))


def message(kind, tid, *attributes, key=None):
    body = b"".join(attributes)
    if key:
        head = struct.pack(">HHI", kind, len(body) + 24, COOKIE) + tid.rjust(12, b"\0")
        body += attribute(8, hmac.new(key, head + body, hashlib.sha1).digest())
    return struct.pack(">HHI", kind, len(body), COOKIE) + tid.rjust(12, b"\0") + body


KEY = hashlib.md5(b":".join((USER, REALM, PASSWORD))).digest()
SIGNER = (attribute(6, USER), attribute(0x14, REALM), attribute(0x15, NONCE))


def request(kind, tid, *attributes):
    return message(kind, tid, *attributes, *SIGNER, key=KEY)


def allocate(tid):
    return request(0x003, tid, attribute(0x19, b"\x11\0\0\0"))


def allocated(tid, relayed=RELAYED, mapped=CLIENT):
    return message(0x103, tid, address(0x16, relayed), attribute(0x0D, struct.pack(">I", 600)), address(0x20, mapped), key=KEY)


def error(kind, tid, code, phrase):
    return message(kind | 0x110, tid, attribute(9, bytes((0, 0, code // 100, code % 100)) + phrase))


def frame(source, target, payload):
    udp = struct.pack(">HHHH", source[1], target[1], 8 + len(payload), 0) + payload
    head = struct.pack(">BBHHHBBH", 0x45, 0, 20 + len(udp), 0, 0, 64, 17, 0) + ip(source[0]) + ip(target[0])
    return bytes(12) + b"\x08\0" + head + udp


def segment(source, target, payload):
    """A frame of TCP."""
    tcp = struct.pack(">HHIIHHHH", source[1], target[1], 1, 1, 0x5018, 65535, 0, 0) + payload
    head = struct.pack(">BBHHHBBH", 0x45, 0, 20 + len(tcp), 0, 0, 64, 6, 0) + ip(source[0]) + ip(target[0])
    return bytes(12) + b"\x08\0" + head + tcp


def block(kind, body):
    body += bytes(-len(body) % 4)
    return struct.pack("<II", kind, 12 + len(body)) + body + struct.pack("<I", 12 + len(body))


START = 1_795_000_000_000_000


def capture(*datagrams, made_by=None):
    """A pcapng of one interface: each datagram is a time in microseconds, its ends and its payload. A frame of ARP comes first. Frames
    that are there already stand in `made_by`, by their times."""
    text = block(0x0A0D0D0A, struct.pack("<IHHq", 0x1A2B3C4D, 1, 0, -1)) + block(1, struct.pack("<HHI", 1, 0, 0))
    frames = [(0, bytes(12) + b"\x08\x06" + bytes(28))] + [(at, frame(source, target, payload)) for at, source, target, payload in datagrams]
    for at, data in sorted([*frames, *(made_by or {}).items()], key=lambda one: one[0]):
        stamp = START + at
        text += block(6, struct.pack("<IIIII", 0, stamp >> 32, stamp & 0xFFFFFFFF, len(data), len(data)) + data)
    return text


def exchange(at, asked, answered, client=CLIENT):
    return (at, client, SERVER, asked), (at + 400, SERVER, client, answered)


def permitted(tid=b"perm"):
    return request(0x008, tid, address(0x12, PEER)), message(0x108, tid, key=KEY)


def bound(tid=b"bind", number=0x4000, peer=PEER):
    asked = request(0x009, tid, attribute(0x0C, struct.pack(">HH", number, 0)), address(0x12, peer))
    return asked, message(0x109, tid, key=KEY)


def channel(number, data):
    return struct.pack(">HH", number, len(data)) + data


def refreshed(tid, seconds):
    lifetime = attribute(0x0D, struct.pack(">I", seconds))
    return request(0x004, tid, lifetime), message(0x104, tid, lifetime, key=KEY)


BEGUN = exchange(1_000, allocate(b"alloc"), allocated(b"alloc"))
FROM_PEER = (PEER, RELAYED, b"hello")
SECOND = 1_000_000

CASES = {
    "r1-other-transaction": capture(*exchange(1_000, message(0x001, b"one"), message(0x101, b"two", address(0x20, CLIENT)))),
    "r2-wrong-password": capture(*exchange(1_000, message(0x003, b"a", attribute(0x19, b"\x11\0\0\0"), *SIGNER, key=b"wrong"), allocated(b"a"))),
    "r2-nasty-name": capture(*exchange(1_000, message(0x003, b"a", attribute(6, NASTY), attribute(0x14, NASTY), attribute(0x15, NONCE), key=KEY), allocated(b"a"))),
    "r4-after-refresh-0": capture(*BEGUN, *exchange(2_000, *permitted()), *exchange(3_000, *refreshed(b"gone", 0)), (4_000, *FROM_PEER), (4_400, SERVER, CLIENT, message(0x017, b"data", address(0x12, PEER), attribute(0x13, b"hello")))),
    "r5-allocation-over": capture(*BEGUN, *exchange(602 * SECOND, *permitted())),
    "r6-no-permission": capture(*BEGUN, (4_000, *FROM_PEER), (4_400, SERVER, CLIENT, message(0x017, b"data", address(0x12, PEER), attribute(0x13, b"hello")))),
    "r8-channel-not-bound": capture(*BEGUN, *exchange(2_000, *permitted()), (4_000, CLIENT, SERVER, channel(0x4001, b"hello")), (4_400, RELAYED, PEER, b"hello")),
    "r9-channel-over": capture(*BEGUN, *exchange(2_000, *bound()), *exchange(500 * SECOND, *refreshed(b"more", 600)), (700 * SECOND, CLIENT, SERVER, channel(0x4000, b"hello")), (700 * SECOND + 400, RELAYED, PEER, b"hello")),
    "r10-channel-number": capture(*BEGUN, *exchange(2_000, *bound(number=0x5000))),
    "r11-channel-conflict": capture(*BEGUN, *exchange(2_000, *bound()), *exchange(3_000, *bound(b"again", 0x4001))),
    "r12-peer-differs": capture(*BEGUN, *exchange(2_000, *bound()), (4_000, CLIENT, SERVER, channel(0x4000, b"hello")), (4_400, RELAYED, ("203.0.113.9", 7001), b"hello")),
    "r13-data-differs": capture(*BEGUN, *exchange(2_000, *bound()), (4_000, CLIENT, SERVER, channel(0x4000, b"hello")), (4_400, RELAYED, PEER, b"HELLO")),
    "r14-out-of-range": capture(*exchange(1_000, allocate(b"a"), allocated(b"a", ("10.0.0.1", 50000)))),
    "r15-lifetime": capture(*BEGUN, *exchange(2_000, refreshed(b"gone", 0)[0], refreshed(b"gone", 600)[1])),
    "r16-tcp": capture(*exchange(1_000, request(0x003, b"a", attribute(0x19, b"\x06\0\0\0")), allocated(b"a"))),
    "r17-mapped": capture(*exchange(1_000, message(0x001, b"one"), message(0x101, b"one", address(0x20, OTHER)))),
    "r18-unsigned": capture(*BEGUN, *exchange(2_000, permitted()[0], message(0x108, b"perm"))),
    "r19-437-without-allocation": capture(*BEGUN, *exchange(2_000, *refreshed(b"gone", 0)), *exchange(3_000, allocate(b"b"), error(0x003, b"b", 437, b"Mismatched " + NASTY))),
    "r20-allocation-present": capture(*BEGUN, *exchange(2_000, *refreshed(b"gone", 0)), *exchange(3_000, allocate(b"b"), allocated(b"b")), *exchange(4_000, allocate(b"c"), allocated(b"c", RELAYED2))),
    "r21-no-mapped-address": capture(*exchange(1_000, message(0x001, b"one"), message(0x101, b"one"))),
    "r22-address-held": capture(*BEGUN, *exchange(3_000, allocate(b"b"), allocated(b"b", RELAYED, OTHER), OTHER)),
    "s1-nobody-asked": capture((1_000, RELAYED, PEER, b"hello")),
    "s11-left-without-act": capture(*BEGUN, (4_000, RELAYED2, PEER, b"hello")),
    "s12-held-too-long": capture(*exchange(1_000, message(0x001, b"one"), message(0x101, b"one", address(0x20, CLIENT)))[:1], (5 * SECOND, SERVER, CLIENT, message(0x101, b"one", address(0x20, CLIENT)))),
}

# Whom a relayed address was told to that no client was told over UDP by the server.
STREAM, UNLISTED = ("198.51.100.9", 50_123), ("192.0.2.1", 3479)
TOLD = allocated(b"far", RELAYED2, STREAM)
CASES |= {
    "s11-told-over-tcp": capture(*BEGUN, (4_000, RELAYED2, PEER, b"hello"), made_by={3_000: segment(SERVER, STREAM, TOLD)}),
    "s11-policy-lacks-listen": capture(*BEGUN, (3_000, UNLISTED, OTHER, allocated(b"far", RELAYED2, OTHER)), (4_000, RELAYED2, PEER, b"hello")),
    "s11-nearest-too-early": capture(*BEGUN, *exchange(2_000, *bound()), (4_000, CLIENT, SERVER, channel(0x4000, b"hello")), (5 * SECOND, RELAYED2, PEER, b"hello")),
    "s11-nearest-too-late": capture(*BEGUN, *exchange(2_000, *bound()), (4_000, RELAYED, PEER, b"hello"), (5 * SECOND, CLIENT, SERVER, channel(0x4000, b"hello"))),
    "r2-one-of-two-signed": capture(*BEGUN, *exchange(2_000, message(0x008, b"perm", address(0x12, PEER), *SIGNER, key=b"wrong"), permitted()[1])),
}

# Data that leaves for a client 0.4998 seconds after the success response to its Refresh with LIFETIME 0, which leaves at 3,400 microseconds.
DELETED = capture(
    *BEGUN, *exchange(2_000, *permitted()), *exchange(3_000, *refreshed(b"gone", 0)), (503_000, *FROM_PEER), (503_200, SERVER, CLIENT, message(0x017, b"data", address(0x12, PEER), attribute(0x13, b"hello")))
)

# What leaves for a client as the data of a peer, and two clients with an address each.
DELIVERED = message(0x017, b"data", address(0x12, PEER), attribute(0x13, b"hello"))
TWO = (*BEGUN, *exchange(2_000, *permitted()), *exchange(3_000, allocate(b"b"), allocated(b"b", RELAYED2, OTHER), OTHER))
LONG = b"hello, there is more"
CASES |= {
    "r4-within-a-second": DELETED,
    "r4-later-than-a-second": capture(*BEGUN, *exchange(2_000, *permitted()), *exchange(3_000, *refreshed(b"gone", 0)), (2_003_000, *FROM_PEER), (2_003_401, SERVER, CLIENT, DELIVERED)),
    # The first of the bytes that differ is the thirteenth.
    "r13-later-byte": capture(*BEGUN, *exchange(2_000, *bound()), (4_000, CLIENT, SERVER, channel(0x4000, LONG)), (4_400, RELAYED, PEER, LONG[:12] + b"X" + LONG[13:])),
    "s1-to-a-silent-client": capture(*BEGUN, *exchange(2_000, *permitted()), (4_000, *FROM_PEER), (4_400, SERVER, OTHER, DELIVERED)),
    # The same data came to an address that nobody was granted in the capture, too: its client may be the receiver.
    "s1-to-a-client-from-before": capture(*BEGUN, *exchange(2_000, *permitted()), (4_000, PEER, RELAYED2, b"hello"), (4_050, *FROM_PEER), (4_400, SERVER, OTHER, DELIVERED)),
    "s11-to-another-client": capture(*TWO, (4_000, *FROM_PEER), (4_400, SERVER, OTHER, DELIVERED)),
    "s11-of-another-client": capture(*TWO, (4_000, CLIENT, SERVER, message(0x016, b"send", address(0x12, RELAYED2), attribute(0x13, b"hello"))), (4_400, SERVER, OTHER, message(0x017, b"data", address(0x12, RELAYED), attribute(0x13, b"hello")))),
    "s11-nearest-of-a-peer": capture(*BEGUN, *exchange(2_000, *permitted()), (4_000, RELAYED, PEER, b"hello"), (4_040, *FROM_PEER)),
    # Usual causes that the output refutes are left out.
    "r2-no-user": capture(*exchange(1_000, message(0x003, b"a", attribute(0x19, b"\x11\0\0\0")), allocated(b"a"))),
    "r2-no-nonce": capture(*exchange(1_000, message(0x003, b"a", attribute(0x19, b"\x11\0\0\0"), *SIGNER[:2], key=KEY), allocated(b"a"))),
    "r4-never-allocated": capture(*exchange(2_000, *permitted())),
    "r14-odd-port": capture(*exchange(1_000, request(0x003, b"a", attribute(0x19, b"\x11\0\0\0"), attribute(0x18, b"\0")), allocated(b"a", RELAYED2))),
    "r14-another-address": capture(*BEGUN, *exchange(2_000, *bound()), (4_000, CLIENT, SERVER, channel(0x4000, b"hello")), (4_400, RELAYED2, PEER, b"hello")),
    "r19-437-to-a-client-with-an-allocation": capture(*BEGUN, *exchange(2_000, permitted()[0], error(0x008, b"perm", 437, b"Mismatch"))),
    # A DTLS record of a call is data: it isn't of a client by DTLS.
    "s11-dtls-for-a-peer": capture(*BEGUN, (4_000, RELAYED, PEER, b"\x16\xfe\xfd" + bytes(20))),
    "s11-dtls": capture(*BEGUN, (4_000, SERVER, CLIENT, b"\x16\xfe\xfd" + bytes(20))),
    "s11-not-translated": capture(*BEGUN, (4_000, PEER, ("10.0.0.1", 50000), b"hello"), (4_400, SERVER, CLIENT, DELIVERED)),
    "nobody-responds": capture((1_000, CLIENT, SERVER, allocate(b"a")), (2_000, OTHER, SERVER, allocate(b"b"))),
}
# Those of which `faults` is printed, too.
FAULTS = ("s1-to-a-silent-client", "s1-to-a-client-from-before", "s11-to-another-client", "s11-of-another-client", "s11-dtls", "s11-not-translated", "s11-told-over-tcp", "s11-policy-lacks-listen", "s11-left-without-act")


def certificate(*lines):
    """A certificate of one lane, whose events are each a kind, names of datagrams, a time in microseconds and a tie."""
    events = "".join(f"{kind} {' '.join(names)} {(START + at) * 1_000} {tie}\n" for kind, *names, at, tie in lines)
    return f"turnaudit-certificate 1\nlane {CLIENT[0]}:{CLIENT[1]} {SERVER[0]}:{SERVER[1]}\n{events}end\n"


ASKED = exchange(1_000, message(0x001, b"one"), message(0x101, b"one", address(0x20, CLIENT)))
AT_ONCE = ((1_000, *ASKED[0][1:]), (1_100, *ASKED[1][1:]))
CAME, ACTED, WENT = ("in", "0.0", 1_000, 0), ("act", "0.0", "0.1", 1_000, 1), ("out", "0.1", 1_400, 0)
# Two clients, of which the first sends data to a peer: its datagrams are 0.0 to 0.5, and what leaves is 0.7.
SENT = (*BEGUN, *exchange(2_000, *bound()), *exchange(3_000, allocate(b"b"), allocated(b"b", RELAYED2, OTHER), OTHER), (4_000, CLIENT, SERVER, channel(0x4000, b"hello")), (4_400, RELAYED, PEER, b"hello"))
GIVEN = (CAME, ACTED, WENT, ("in", "0.2", 2_000, 0), ("act", "0.2", "0.3", 2_000, 1), ("out", "0.3", 2_400, 0), ("in", "0.6", 4_000, 0), ("act", "0.6", "0.7", 4_000, 1))
OTHERS = certificate(("in", "0.4", 3_000, 0), ("act", "0.4", "0.5", 3_000, 1), ("out", "0.5", 3_400, 0), ("out", "0.7", 4_400, 0)).split("\n", 1)[1].replace(CLIENT[0], OTHER[0])
RELAYED_TWICE = ((4_000, CLIENT, SERVER, channel(0x4000, b"hello")), (4_400, RELAYED, PEER, b"hello"), (4_500, RELAYED, PEER, b"hello"))

# Captures with certificates that break a rule each.
CERTIFIED = {
    "s2-placed-twice": (capture(*ASKED), certificate(CAME, ("in", "0.0", 1_000, 1), ("act", "0.0", "0.1", 1_000, 2), WENT)),
    "s3-stranger": (capture(*ASKED), certificate(CAME, ACTED, WENT, ("in", "0.7", 1_500, 0))),
    "s5-interface-order": (capture(*AT_ONCE), certificate(("out", "0.1", 1_050, 0), ("in", "0.0", 1_060, 0), ("act", "0.0", "0.1", 1_060, 1))),
    "s6-lane-order": (capture(*ASKED), certificate(("in", "0.0", 1_000, 5), ACTED, WENT)),
    "s7-side": (capture(*ASKED), certificate(("out", "0.0", 1_000, 0), ("in", "0.1", 1_400, 0))),
    "s8-endpoint": (capture(*ASKED), certificate(CAME, ACTED, WENT).replace(CLIENT[0], OTHER[0])),
    "s9-act-before-arrival": (capture(*ASKED), certificate(("act", "0.0", "0.1", 999, 0), CAME, WENT)),
    "s10-acted-twice": (capture(*ASKED, (1_500, SERVER, CLIENT, ASKED[1][3])), certificate(CAME, ACTED, WENT, ("act", "0.0", "0.2", 1_450, 0), ("out", "0.2", 1_500, 0))),
    "s11-nearest-used": (capture(*BEGUN, *exchange(2_000, *bound()), *RELAYED_TWICE), certificate(*GIVEN[:6], *(("in", "0.4", 4_000, 0), ("act", "0.4", "0.5", 4_000, 1), ("out", "0.5", 4_400, 0), ("out", "0.6", 4_500, 0)))),
    "s13-act-without-departure": (capture(*SENT), certificate(*GIVEN).removesuffix("end\n") + OTHERS),
}
