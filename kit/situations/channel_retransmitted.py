"""RFC 8656, section 12.2: a ChannelBind that is sent again gets a success response again.

The request has the same transaction id, as after a lost response. A right server refreshes the
binding, or sends the remembered response.

Judged by turnaudit: each response. By a check: that each copy gets one.
"""

from kit.messages import CHANNEL_BIND, channel_number, peer_address
from kit.testbed import Testbed

NUMBER = 0x4002


def drive(testbed: Testbed) -> None:
    client, peer = testbed.client(), testbed.peer()
    client.allocate()
    request = client.build(CHANNEL_BIND, [channel_number(NUMBER), peer_address(peer.endpoint)])
    for copy in ("the first copy", "the second copy", "the third copy"):
        testbed.expect_success(client.exchange(request), f"{copy} of the ChannelBind")
    client.send_on(NUMBER, b"on the channel")
    peer.receives(b"on the channel", client)
