"""RFC 8656, section 12.2: a ChannelBind without CHANNEL-NUMBER or XOR-PEER-ADDRESS gets 400.

Both are mandatory. A right server responds with 400 (Bad Request) if one is missing, and binds
nothing.

Judged by turnaudit: R10 or R12 if a request succeeds. By a check: the code.
"""

from kit.messages import CHANNEL_BIND, channel_number, peer_address
from kit.testbed import Testbed


def drive(testbed: Testbed) -> None:
    client, peer = testbed.client(), testbed.peer()
    client.allocate()
    response = client.request(CHANNEL_BIND, [peer_address(peer.endpoint)])
    testbed.expect_error(response, 400, "a ChannelBind without CHANNEL-NUMBER")
    response = client.request(CHANNEL_BIND, [channel_number(0x4000)])
    testbed.expect_error(response, 400, "a ChannelBind without XOR-PEER-ADDRESS")
    client.send_on(0x4000, b"on a channel that isn't bound")
    peer.receives_nothing()
