"""STUN and TURN messages: right ones, and ones that are wrong on purpose (RFC 8489, section 5; RFC 8656, sections 17 and 18)."""

from __future__ import annotations

import hashlib
import hmac
import ipaddress
import struct
import zlib
from dataclasses import dataclass

COOKIE = 0x2112A442
HEADER = struct.Struct(">HHI12s")

# Methods (RFC 8489, section 18.1; RFC 8656, section 17) and the classes' bits of a message type (RFC 8489, section 5).
BINDING, ALLOCATE, REFRESH, SEND, DATA_METHOD, CREATE_PERMISSION, CHANNEL_BIND = 0x001, 0x003, 0x004, 0x006, 0x007, 0x008, 0x009
REQUEST, INDICATION, SUCCESS, ERROR = 0x000, 0x010, 0x100, 0x110
CLASS_BITS = 0x110
METHODS = {
    BINDING: "Binding",
    ALLOCATE: "Allocate",
    REFRESH: "Refresh",
    SEND: "Send",
    DATA_METHOD: "Data",
    CREATE_PERMISSION: "CreatePermission",
    CHANNEL_BIND: "ChannelBind",
}

# Attributes (RFC 8489, section 18.3; RFC 8656, section 18).
USERNAME = 0x0006
MESSAGE_INTEGRITY = 0x0008
ERROR_CODE = 0x0009
UNKNOWN_ATTRIBUTES = 0x000A
CHANNEL_NUMBER = 0x000C
LIFETIME = 0x000D
XOR_PEER_ADDRESS = 0x0012
DATA = 0x0013
REALM = 0x0014
NONCE = 0x0015
XOR_RELAYED_ADDRESS = 0x0016
REQUESTED_ADDRESS_FAMILY = 0x0017
EVEN_PORT = 0x0018
REQUESTED_TRANSPORT = 0x0019
DONT_FRAGMENT = 0x001A
MESSAGE_INTEGRITY_SHA256 = 0x001C
XOR_MAPPED_ADDRESS = 0x0020
RESERVATION_TOKEN = 0x0022
ADDITIONAL_ADDRESS_FAMILY = 0x8000
ADDRESS_ERROR_CODE = 0x8001
ICMP = 0x8004
SOFTWARE = 0x8022
FINGERPRINT = 0x8028

IPV4, IPV6 = 0x01, 0x02
UDP, TCP = 17, 6

REASONS = {
    300: "Try Alternate",
    400: "Bad Request",
    401: "Unauthenticated",
    403: "Forbidden",
    420: "Unknown Attribute",
    437: "Allocation Mismatch",
    438: "Stale Nonce",
    440: "Address Family not Supported",
    441: "Wrong Credentials",
    442: "Unsupported Transport Protocol",
    443: "Peer Address Family Mismatch",
    486: "Allocation Quota Reached",
    500: "Server Error",
    508: "Insufficient Capacity",
}


def key_of(user: str, realm: str, password: str) -> bytes:
    """The key of a long-term credential by MD5 (RFC 8489, section 9.2.2)."""
    return hashlib.md5(f"{user}:{realm}:{password}".encode()).digest()


def xor_address(endpoint: tuple[str, int], transaction: bytes = bytes(12)) -> bytes:
    """The value of an XOR-ed address (RFC 8489, section 14.2); the transaction id counts for IPv6 alone."""
    packed = ipaddress.ip_address(endpoint[0]).packed
    mask = struct.pack(">I", COOKIE) + transaction
    mixed = bytes(byte ^ mask_byte for byte, mask_byte in zip(packed, mask))
    return struct.pack(">BBH", 0, IPV4 if len(packed) == 4 else IPV6, endpoint[1] ^ (COOKIE >> 16)) + mixed


def read_address(value: bytes) -> tuple[str, int] | None:
    """The IPv4 endpoint of an XOR-ed address."""
    if len(value) != 8 or value[1] != IPV4:
        return None
    port, number = struct.unpack(">HI", value[2:])
    return str(ipaddress.IPv4Address(number ^ COOKIE)), port ^ (COOKIE >> 16)


# Attributes as pairs of a number and a value.


def lifetime(seconds: int) -> tuple[int, bytes]:
    return LIFETIME, struct.pack(">I", seconds)


def transport(protocol: int = UDP) -> tuple[int, bytes]:
    return REQUESTED_TRANSPORT, bytes([protocol, 0, 0, 0])


def family(number: int) -> tuple[int, bytes]:
    return REQUESTED_ADDRESS_FAMILY, bytes([number, 0, 0, 0])


def additional_family(number: int) -> tuple[int, bytes]:
    return ADDITIONAL_ADDRESS_FAMILY, bytes([number, 0, 0, 0])


def even_port(reserve: bool = False) -> tuple[int, bytes]:
    return EVEN_PORT, bytes([0x80 if reserve else 0])


def peer_address(endpoint: tuple[str, int], transaction: bytes = bytes(12)) -> tuple[int, bytes]:
    return XOR_PEER_ADDRESS, xor_address(endpoint, transaction)


def channel_number(number: int) -> tuple[int, bytes]:
    return CHANNEL_NUMBER, struct.pack(">HH", number, 0)


def encode_attributes(attributes: list[tuple[int, bytes]]) -> bytes:
    """Each attribute with its padding (RFC 8489, section 14)."""
    return b"".join(struct.pack(">HH", number, len(value)) + value + bytes(-len(value) % 4) for number, value in attributes)


def encode_head(kind: int, length: int, transaction: bytes) -> bytes:
    return HEADER.pack(kind, length, COOKIE, transaction)


def encode(kind: int, transaction: bytes, attributes=(), key: bytes | None = None, signatures=("sha1",), has_fingerprint=False) -> bytes:
    """A message, signed if there is a key; each integrity covers what precedes it (RFC 8489, sections 14.5, 14.6 and 14.7)."""
    body = encode_attributes(list(attributes))
    for name in signatures if key is not None else ():
        number, size = (MESSAGE_INTEGRITY, 20) if name == "sha1" else (MESSAGE_INTEGRITY_SHA256, 32)
        covered = encode_head(kind, len(body) + 4 + size, transaction) + body
        body += struct.pack(">HH", number, size) + hmac.new(key, covered, name).digest()
    if has_fingerprint:
        covered = encode_head(kind, len(body) + 8, transaction) + body
        body += struct.pack(">HHI", FINGERPRINT, 4, zlib.crc32(covered) ^ 0x5354554E)
    return encode_head(kind, len(body), transaction) + body


def channel_data(number: int, data: bytes, padding: int = 0, length: int | None = None) -> bytes:
    """A ChannelData message (RFC 8656, section 12.4), with a length of its own if it is to be wrong."""
    return struct.pack(">HH", number, len(data) if length is None else length) + data + bytes(padding)


def read_channel_data(payload: bytes) -> tuple[int, bytes] | None:
    """The number and the data of a ChannelData message; up to three bytes of padding may follow."""
    if len(payload) < 4 or not 0x40 <= payload[0] <= 0x4F:
        return None
    number, length = struct.unpack_from(">HH", payload)
    return (number, payload[4:4 + length]) if 0 <= len(payload) - 4 - length <= 3 else None


@dataclass
class Message:
    """A message that was received."""

    kind: int
    transaction: bytes
    attributes: list[tuple[int, bytes]]

    @property
    def method(self) -> int:
        return self.kind & ~CLASS_BITS

    @property
    def message_class(self) -> int:
        return self.kind & CLASS_BITS

    @property
    def is_success(self) -> bool:
        return self.message_class == SUCCESS

    def get(self, number: int) -> bytes | None:
        """The value of the first attribute of a type."""
        return next((value for have, value in self.attributes if have == number), None)

    def get_all(self, number: int) -> list[bytes]:
        return [value for have, value in self.attributes if have == number]

    def address(self, number: int) -> tuple[str, int] | None:
        value = self.get(number)
        return None if value is None else read_address(value)

    @property
    def lifetime(self) -> int | None:
        value = self.get(LIFETIME)
        return struct.unpack(">I", value)[0] if value is not None and len(value) == 4 else None

    @property
    def error(self) -> int | None:
        """The code of an error response (RFC 8489, section 14.8)."""
        value = self.get(ERROR_CODE)
        return (value[2] & 7) * 100 + value[3] if value is not None and len(value) >= 4 else None

    @property
    def unknown(self) -> list[int]:
        value = self.get(UNKNOWN_ATTRIBUTES) or b""
        return [number for number, in struct.iter_unpack(">H", value[:len(value) & ~1])]


def read_message(payload: bytes) -> Message | None:
    """The message that a datagram contains, or nothing if it isn't one (RFC 8489, section 6.3)."""
    if len(payload) < 20 or payload[0] & 0xC0 or len(payload) % 4:
        return None
    kind, length, cookie, transaction = HEADER.unpack_from(payload)
    if cookie != COOKIE or length != len(payload) - 20:
        return None
    attributes, at = [], 20
    while at < len(payload):
        number, size = struct.unpack_from(">HH", payload, at)
        if at + 4 + size > len(payload):
            return None
        attributes.append((number, payload[at + 4:at + 4 + size]))
        at += 4 + size + -size % 4
    return Message(kind, transaction, attributes)


def describe(response: Message | None) -> str:
    """A response in words."""
    if response is None:
        return "no response"
    name = METHODS.get(response.method, f"method 0x{response.method:03x}")
    if response.is_success:
        return f"{name} success response"
    code = response.error
    return f"{name} error response {code} ({REASONS.get(code, 'not a code of the RFCs')})"
