"""The comment that `turnprep cut` writes at the end of a capture, read by the pcapng specification (sections 3.5 and 4.1)."""

import hashlib
import struct

SECTION = 0x0A0D0D0A
MAGIC = 0x1A2B3C4D
PACKET = 6
COMMENT = 1


def last_block(capture):
    """Where the last block of a capture begins: its length stands at its end as well."""
    for order in "<>":
        (size,) = struct.unpack_from(order + "I", capture, len(capture) - 4)
        if 12 <= size <= len(capture) and struct.unpack_from(order + "I", capture, len(capture) - size + 4) == (size,):
            return len(capture) - size
    raise ValueError("the last block has no length")


def comment_in(section):
    """The comment of a little-endian section header that has nothing else."""
    kind, size, magic, major, minor, length = struct.unpack_from("<IIIHHq", section)
    if (kind, size, magic, major, minor, length) != (SECTION, len(section), MAGIC, 1, 0, -1):
        raise ValueError("another section header")
    code, count = struct.unpack_from("<HH", section, 24)
    text = section[28 : 28 + count]
    rest = section[28 + count : -4]
    if code != COMMENT or len(rest) != -count % 4 + 4 or any(rest):
        raise ValueError("other options than a comment")
    return text.decode("ascii")


def parted(written):
    """A capture that `cut` wrote without its comment, and that."""
    at = last_block(written)
    return written[:at], comment_in(written[at:])


def packets_in(capture):
    """How many packets a capture has, in sections of any byte order."""
    count, at, order = 0, 0, "<"
    while at < len(capture):
        (kind,) = struct.unpack_from(order + "I", capture, at)
        if kind == SECTION:
            order = "<" if struct.unpack_from("<I", capture, at + 8) == (MAGIC,) else ">"
        count += kind == PACKET
        at += struct.unpack_from(order + "I", capture, at + 4)[0]
    return count


def fault_of(written, original):
    """What is wrong with the comment of a capture that was cut, if anything is."""
    rest, comment = parted(written)
    kept = packets_in(rest)
    excluded = packets_in(original) - kept
    digest = hashlib.sha256(original).hexdigest()
    due = f"turnprep cut: kept {kept} packets and excluded {excluded}, which the list set-aside has; SHA-256 of the original: {digest}"
    return None if comment == due else f"comment {comment!r}, not {due!r}"
