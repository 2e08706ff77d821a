"""RFC 8489, section 6.3: a datagram that is neither STUN nor ChannelData is discarded.

The first two bits of a STUN message are 00, of ChannelData 01. A right server discards datagrams
that begin with 10 or 11, and other noise, without a response.

Judged by turnaudit: R1 or S11 for a response. By a check: that there is none.
"""

from kit.messages import BINDING, REQUEST, encode
from kit.testbed import Testbed


def drive(testbed: Testbed) -> None:
    client = testbed.client()
    right = encode(BINDING | REQUEST, client.transaction())
    for first in (0x80, 0xC0, 0xFF):
        payload = bytes([first]) + right[1:]
        testbed.expect_silence(client, payload, f"a datagram that begins with 0x{first:02X}")
    testbed.expect_silence(client, bytes(range(200)), "a datagram of 200 bytes of noise")
    testbed.expect_silence(client, bytes(1400), "a datagram of 1400 zero bytes")
    testbed.expect_alive(client)
