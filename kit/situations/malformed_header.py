"""RFC 8489, section 6.3: a message with a malformed header is discarded without a response.

The magic cookie is wrong, the length isn't that of the message, or the message is shorter than a
header. A right server discards each silently, and responds to the next right request. The message
with another cookie is an Allocate: a Binding request without the cookie may be one of RFC 3489, to
which a server may respond (RFC 5389, section 12.2).

Judged by turnaudit: R1 or S11 for a response. By a check: that there is none.
"""

import struct

from kit.messages import ALLOCATE, BINDING, COOKIE, REQUEST, encode, transport
from kit.testbed import Testbed


def drive(testbed: Testbed) -> None:
    client = testbed.client()
    right = encode(BINDING | REQUEST, client.transaction())
    allocate = encode(ALLOCATE | REQUEST, client.transaction(), [transport()])
    for name, payload in (
        ("an empty datagram", b""),
        ("a message of one byte", right[:1]),
        ("a message of 19 bytes", right[:19]),
        ("an Allocate with another magic cookie", allocate[:4] + struct.pack(">I", COOKIE ^ 1) + allocate[8:]),
        ("a message with a length of 4 and no attributes", right[:2] + struct.pack(">H", 4) + right[4:]),
        ("a message with a length of 0 and 4 bytes more", right + bytes(4)),
        ("a message with a length of 3", right[:2] + struct.pack(">H", 3) + right[4:] + bytes(3)),
    ):
        testbed.expect_silence(client, payload, name)
    testbed.expect_alive(client)
