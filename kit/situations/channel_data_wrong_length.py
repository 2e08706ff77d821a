"""RFC 8656, section 12.6: a ChannelData message whose length is greater than its data is discarded.

The length counts bytes that aren't there. A right server can't relay them, and discards the message
without a response. A message of less than four bytes isn't one.

Judged by turnaudit: R13 for what is relayed. By a check: that nothing is.
"""

from kit.messages import channel_data
from kit.testbed import Testbed

NUMBER = 0x4000


def drive(testbed: Testbed) -> None:
    client, peer = testbed.client(), testbed.peer()
    client.allocate()
    client.bind(NUMBER, peer)
    for name, payload in (
        ("a ChannelData message with a length of 100 and 4 bytes", channel_data(NUMBER, b"four", length=100)),
        ("a ChannelData message with a length of 65535", channel_data(NUMBER, b"four", length=0xFFFF)),
        ("a ChannelData message of three bytes", channel_data(NUMBER, b"")[:3]),
    ):
        testbed.expect_silence(client, payload, name)
    peer.receives_nothing()
    client.send_on(NUMBER, b"with the right length")
    peer.receives(b"with the right length", client)
