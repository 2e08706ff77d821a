"""STUN messages and ChannelData (RFC 8489, sections 5 and 14; RFC 8656, sections 12.4 and 18).

Part of the plain checker (tests/plain/checker.py says who uses it). It imports none of its other files.
"""

import hashlib
import hmac
import struct

COOKIE = 0x2112A442
REQUEST, INDICATION, SUCCESS, ERROR = range(4)
BINDING, ALLOCATE, REFRESH, SEND, DATA_METHOD, CREATE_PERMISSION, CHANNEL_BIND = 1, 3, 4, 6, 7, 8, 9
USERNAME, INTEGRITY, ERROR_CODE, UNKNOWN_ATTRIBUTES = 0x0006, 0x0008, 0x0009, 0x000A
CHANNEL_NUMBER, LIFETIME, PEER, DATA, REALM, NONCE = 0x000C, 0x000D, 0x0012, 0x0013, 0x0014, 0x0015
RELAYED, FAMILY, EVEN_PORT, TRANSPORT, MAPPED = 0x0016, 0x0017, 0x0018, 0x0019, 0x0020
INTEGRITY_SHA256, PASSWORD_ALGORITHM, FINGERPRINT = 0x001C, 0x001D, 0x8028


class Message:
    """A whole STUN message."""

    def __init__(self, kind, transaction, attributes, covered):
        self.kind = (kind >> 7 & 2) | (kind >> 4 & 1)
        self.method = (kind & 0x000F) | (kind >> 1 & 0x0070) | (kind >> 2 & 0x0F80)
        self.transaction = transaction
        self.attributes = attributes
        self.covered = covered

    def all(self, number):
        return [value for kind, value in self.attributes if kind == number]

    def first(self, number):
        values = self.all(number)
        return values[0] if values else None

    def has(self, number):
        return self.first(number) is not None

    def number_of(self, attribute, size, form):
        """The number at the front of an attribute of that size; None where it is absent or can't be read."""
        value = self.first(attribute)
        return struct.unpack_from(form, value)[0] if value is not None and len(value) == size else None

    def lifetime(self):
        return self.number_of(LIFETIME, 4, ">I")

    def address(self, attribute):
        value = self.first(attribute)
        return None if value is None else address_of(value)

    def error_code(self):
        value = self.first(ERROR_CODE)
        if value is None or len(value) < 4:
            return None
        hundreds, number = value[2] & 7, value[3]
        return 100 * hundreds + number if 3 <= hundreds <= 6 and number <= 99 else None

    def is_signed(self, key):
        """MESSAGE-INTEGRITY-SHA256, which may be cut, decides alone where it is seen."""
        value = self.first(INTEGRITY_SHA256)
        if value is not None:
            whole = hmac.new(key, self.covered[INTEGRITY_SHA256], hashlib.sha256).digest()
            return len(value) in (16, 20, 24, 28, 32) and whole.startswith(value)
        value = self.first(INTEGRITY)
        return value is not None and len(value) == 20 and value == hmac.new(key, self.covered[INTEGRITY], hashlib.sha1).digest()

    def algorithm(self):
        """1 for MD5, which is also meant where none can be read, 2 for SHA-256, or another."""
        named = self.number_of(PASSWORD_ALGORITHM, 4, ">H")
        return 1 if named is None else named


def message(payload):
    """The message that a whole payload is, or None."""
    if len(payload) < 20:
        return None
    kind, length, cookie = struct.unpack_from(">HHI", payload)
    if kind >= 0x4000 or cookie != COOKIE or length % 4 or length != len(payload) - 20:
        return None
    attributes, covered, at = [], {}, 20
    while at < len(payload):
        number, size = struct.unpack_from(">HH", payload, at)
        end = at + 4 + size + -size % 4
        if end > len(payload):
            return None
        # Behind MESSAGE-INTEGRITY two types are seen, and behind MESSAGE-INTEGRITY-SHA256 one of these.
        if INTEGRITY_SHA256 in covered:
            seen = number == FINGERPRINT
        else:
            seen = INTEGRITY not in covered or number in (INTEGRITY_SHA256, FINGERPRINT)
        if seen:
            attributes.append((number, payload[at + 4:at + 4 + size]))
        if seen and number in (INTEGRITY, INTEGRITY_SHA256):
            covered[number] = payload[:2] + struct.pack(">H", end - 20) + payload[4:at]
        at = end
    return Message(kind, payload[8:20], attributes, covered)


def address_of(value):
    """The address that an XOR-ADDRESS attribute holds, or None."""
    if len(value) != 8 or value[1] != 1:
        return None
    port, ip = struct.unpack_from(">HI", value, 2)
    return ip ^ COOKIE, port ^ (COOKIE >> 16)


def channel_data(payload):
    """Number, data and the count of bytes behind it, or None."""
    if len(payload) < 4 or payload[0] >> 6 != 1:
        return None
    number, length = struct.unpack_from(">HH", payload)
    if len(payload) < 4 + length:
        return None
    return number, payload[4:4 + length], len(payload) - 4 - length


def long_term_keys(user, realm, password):
    """By the number of the password algorithm (RFC 8489, sections 9.2.2 and 18.5)."""
    text = b":".join((user, realm, password))
    return {1: hashlib.md5(text).digest(), 2: hashlib.sha256(text).digest()}
