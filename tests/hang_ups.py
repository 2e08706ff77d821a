#!/usr/bin/env python3
"""Captures of clients for which a server relays on behind a Refresh of 0, for tests/prepare.py and tests/prepared.py.

Of each stands how many milliseconds `cut` is told, the list's lines that begin with `released`, as they were worked out by hand, and
what an audit says of what was cut. It imports the messages and blocks of bench/make_capture.py.
"""

import pathlib
import sys

TOP = pathlib.Path(__file__).resolve().parent.parent
sys.path.insert(0, str(TOP / "bench"))

import make_capture  # noqa: E402

START = 1_700_000_000_000_000
# The client asks to let go of its allocation a second later, and the success leaves 20 microseconds behind that.
ASKED = START + 1_000_000
LEFT = ASKED + 20
DATA = b"8 bytes."
HEAD = "198.51.100.1:40000 192.0.2.1:3478 192.0.2.1:49152"


def from_peer(client, behind):
    """Data that leaves for the client so many microseconds behind the success. It arrived 10 before: 8 bytes in, 44 out."""
    client.from_peer(LEFT + behind - 10, DATA, False)


def to_peer(client, behind):
    """Data that leaves for the peer. It arrived 10 microseconds before: 44 bytes in, 8 out."""
    client.to_peer(LEFT + behind - 10, DATA)


def relays_on(client, _other):
    """Data in time, to both ends, and two seconds behind the success."""
    from_peer(client, 1_500)
    to_peer(client, 5_000)
    from_peer(client, 311_000)
    from_peer(client, 2_000_000)


def allocates_anew(client, _other):
    """The client asks for an allocation again, in the time."""
    from_peer(client, 1_500)
    client.request(LEFT + 50_000, "allocate", [(make_capture.TRANSPORT, bytes([17, 0, 0, 0]))], [], challenged=True)
    from_peer(client, 60_000)


def of_another(client, other):
    """Another client is given the address, in the time."""
    from_peer(client, 1_500)
    other.relayed = client.relayed
    other.open(LEFT + 10_000_000)
    from_peer(client, 11_000_000)


def line(first, last, arrived, left):
    """The list's line, with moments in microseconds behind the success."""
    moments = f"from {LEFT + first}000 to {LEFT + last}000"
    return f"released {HEAD} {moments} in {arrived} out {left} longest-us {last}"


# What the server does, the milliseconds that are said, the lines, and what an audit says of the rest.
CASES = (
    (relays_on, 0, [], "R4 no allocation"),
    (relays_on, 1, [], "R4 no allocation"),
    (relays_on, 310, [line(1_490, 5_000, "2 52", "2 52")], "R4 no allocation"),
    (relays_on, 311, [line(1_490, 311_000, "3 60", "3 96")], "R4 no allocation"),
    (relays_on, 60_000, [line(1_490, 2_000_000, "4 68", "4 140")], "conforming"),
    (allocates_anew, 60_000, [line(1_490, 1_500, "1 8", "1 44")], "R4 no allocation"),
    (of_another, 60_000, [line(1_490, 1_500, "1 8", "1 44")], "S10 acted twice"),
)


def build(folder, relays):
    """Writes the captures, with policy and creds."""
    sides = (make_capture.Side(folder / "client.pcapng", 0, 0), make_capture.Side(folder / "peer.pcapng", 0, 64))
    client, other = (make_capture.Client(number, sides) for number in (0, 2))
    client.open(START)
    client.from_peer(START + 10_000, DATA, False)
    client.refresh(ASKED, 0)
    relays(client, other)
    for side in sides:
        side.out.close()
    (folder / "policy").write_text("turnaudit-policy 1\nlisten 192.0.2.1:3478\nrelay 192.0.2.1:49152-65535\n")
    (folder / "creds").write_text("user0\texample.org\tsecret\nuser2\texample.org\tsecret\n")
    return [folder / "client.pcapng", folder / "peer.pcapng"]
