"""RFC 8656, section 12.6: a datagram that begins like a channel above 0x4FFF is discarded.

The first bytes 0x50 to 0x7F are reserved (RFC 7983 gives them to other protocols). A right server
discards such datagrams without a response.

Judged by turnaudit: R8 for what is relayed. By a check: that there is no response.
"""

from kit.messages import channel_data
from kit.testbed import Testbed


def drive(testbed: Testbed) -> None:
    client, peer = testbed.client(), testbed.peer()
    client.allocate()
    client.bind(0x4000, peer)
    for number in (0x5000, 0x6ABC, 0x7FFF):
        testbed.expect_silence(client, channel_data(number, b"data"), f"a datagram that begins with 0x{number:04X}")
    peer.receives_nothing()
    client.send_on(0x4000, b"on the channel")
    peer.receives(b"on the channel", client)
