"""RFC 8489, section 6.3: a message whose last attribute doesn't fit is discarded.

The length of the message is right, and that of its last attribute counts bytes that aren't there. So
the message can't be read as section 5 has it, and a right server discards it silently. It responds
to the next right request.

Judged by turnaudit: R1, S10 or S11 for a response. By a check: that there is none.
"""

import struct

from kit.messages import ALLOCATE, BINDING, REQUEST, SOFTWARE, encode_attributes, encode_head, transport
from kit.testbed import Testbed


def drive(testbed: Testbed) -> None:
    client = testbed.client()
    too_long = struct.pack(">HH", SOFTWARE, 400) + b"tail"
    for name, method, attributes in (("a Binding request", BINDING, []), ("an Allocate", ALLOCATE, [transport()])):
        body = encode_attributes(attributes) + too_long
        payload = encode_head(method | REQUEST, len(body), client.transaction()) + body
        testbed.expect_silence(client, payload, f"{name} with an attribute that doesn't fit")
    testbed.expect_alive(client)
