"""RFC 8656, section 12.2: a ChannelBind of the same number and peer refreshes the binding.

A client renews a channel by the same request. A right server responds with success each time, and
the channel is bound as before.

Judged by turnaudit: R11 doesn't apply to the same pair. By a check: the response, and that data is
relayed.
"""

from kit.testbed import Testbed

NUMBER = 0x4001


def drive(testbed: Testbed) -> None:
    client, peer = testbed.client(), testbed.peer()
    client.allocate()
    for count in ("the first", "the second", "the third"):
        testbed.expect_success(client.bind_channel(NUMBER, peer), f"{count} ChannelBind of this number and peer")
    client.send_on(NUMBER, b"on the channel")
    peer.receives(b"on the channel", client)
    peer.send_to(client, b"on the channel")
    client.receives(b"on the channel", channel=NUMBER)
