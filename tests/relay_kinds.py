#!/usr/bin/env python3
"""Kinds of relays in use for tests/ready.py: captures by a server that keeps to its rules, with what has to be prepared.

The scenes are those of tests/leaks.py and tests/late_leaks.py. One has everything at once: a ring of two files for each interface, a
fragmented datagram, a server whose address is private on the wire, and data after a deletion.
"""

import pathlib
import struct

import late_leaks
import leaks

RELEASED = "--released-ms 1000"
PUBLIC, PRIVATE = bytes([192, 0, 2, 1]), bytes([10, 0, 0, 9])
PACKET = 6


def ends(scene):
    """The server ends: nobody gets anything any more."""
    scene.arrive(leaks.THEN)
    scene.sides[0].put(leaks.THEN + 100, scene.judged.endpoint, leaks.SERVER, leaks.message(leaks.BINDING_TYPES["refresh"], scene.judged.transaction(), []))


def everything(scene):
    """A hang-up of a client, and data for its peer that is long enough for fragments."""
    scene.judged.to_peer(leaks.THEN, b"long " * 100)
    leaks.ends_and_relays_on(scene)


# A name, what the server does, the options, how many datagrams and clients are judged in addition to those of a quiet relay, and whether
# the captures are rewritten. A Refresh with LIFETIME 0 and its success response are judged, also of a client from before: RFC 8656,
# section 7.2, has that response without an allocation, too.
KINDS = [
    ("a call that hangs up", leaks.ends_and_relays_on, RELEASED, 2, 0, False),
    ("a call from before that hangs up", late_leaks.ends_from_before, RELEASED, 2, 1, False),
    ("a client by TCP beside UDP", leaks.relays_for_tcp, "", 0, 0, False),
    ("a client by TLS beside UDP", leaks.relays_for_tls, "", 0, 0, False),
    ("a client by DTLS beside UDP", leaks.relays_for_dtls, "", 0, 0, False),
    ("a client by IPv6 beside UDP", leaks.relays_for_ipv6, "", 0, 0, False),
    ("a server that ends", ends, "", 2, 0, False),
    ("a ring, a translation, fragments and a hang-up", everything, RELEASED, 4, 0, True),
]


def blocks(capture):
    """The blocks of a capture."""
    while capture:
        size = struct.unpack_from("<I", capture, 4)[0]
        yield capture[:size]
        capture = capture[size:]


def packet(block, frame):
    """The packet's block with another frame."""
    size = 32 + len(frame) + -len(frame) % 4
    head = struct.pack("<II", PACKET, size) + block[8:20] + struct.pack("<II", len(frame), len(frame))
    return head + frame + bytes(-len(frame) % 4) + struct.pack("<I", size)


def frame_of(block):
    return block[28 : 28 + struct.unpack_from("<I", block, 20)[0]]


def translated(frame):
    """A frame as it is behind the translation: messages have the public address, and headers the private one."""
    if frame[12:14] != b"\x08\x00" or frame[23] != 17:
        return frame
    ends = b"".join(PRIVATE if end == PUBLIC else end for end in (frame[26:30], frame[30:34]))
    return frame[:26] + ends + frame[34:]


def fragments(frame):
    """The two fragments of a long datagram, or the frame."""
    if len(frame) < 500 or frame[12:14] != b"\x08\x00" or frame[23] != 17:
        return [frame]
    data = frame[34:]
    cut = len(data) // 2 & ~7
    made = []
    for offset, part in ((0, data[:cut]), (cut, data[cut:])):
        more = 0x2000 if offset == 0 else 0
        head = frame[14:16] + struct.pack(">HHH", 20 + len(part), 77, more | offset >> 3) + frame[22:34]
        made.append(frame[:14] + head + part)
    return made


def rewritten(path):
    """The names of the two files of a ring with the capture's packets, translated and fragmented."""
    section, interface, *packets = blocks(path.read_bytes())
    new = [packet(block, part) for block in packets for part in fragments(translated(frame_of(block)))]
    half = len(new) // 2
    names = [path.with_name(f"{path.stem}_0000{number}_2026113000000{number}.pcapng") for number in (1, 2)]
    for name, part in zip(names, (new[:half], new[half:])):
        name.write_bytes(section + interface + b"".join(part))
    return names


def build(folder, does, options, is_rewritten):
    """Writes the captures of a kind, with policy and creds, and returns their names."""
    folder.mkdir()
    captures = leaks.build(folder, does, tuple(options.split()))
    if not is_rewritten:
        return captures
    (folder / "policy").write_text("turnaudit-policy 1\nlisten 10.0.0.9:3478\nrelay 192.0.2.1:49152-65535\n")
    return [name for path in captures for name in rewritten(path)]


def quiet(folder):
    """The captures of a relay whose clients all came after them, of which nothing is excluded."""
    folder.mkdir()
    return leaks.build(pathlib.Path(folder), leaks.nothing, leaks.STRICT)
