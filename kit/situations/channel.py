"""RFC 8656, section 12.2: a ChannelBind binds a number to a peer, in both directions.

A right server responds with success. Then it relays ChannelData on that number to the peer, and
what the peer sends as ChannelData on that number (section 12.7).

Judged by turnaudit: R8, R12 to R14. By a check: that it comes as ChannelData.
"""

from kit.testbed import Testbed

NUMBER = 0x4000


def drive(testbed: Testbed) -> None:
    client, peer = testbed.client(), testbed.peer()
    client.allocate()
    testbed.expect_success(client.bind_channel(NUMBER, peer), "a ChannelBind")
    for count in range(3):
        client.send_on(NUMBER, b"up %d" % count)
        peer.receives(b"up %d" % count, client)
        peer.send_to(client, b"down %d" % count)
        client.receives(b"down %d" % count, channel=NUMBER)
