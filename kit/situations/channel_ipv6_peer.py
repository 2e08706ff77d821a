"""RFC 8656, section 12.2: a ChannelBind to an IPv6 peer of an IPv4 allocation gets 443.

The address family of the peer has to be that of the relayed transport address. A right server
responds with 443 (Peer Address Family Mismatch), and the number stays free.

Judged by turnaudit: R12 if the request succeeds. By a check: the code.
"""

from kit.messages import CHANNEL_BIND, channel_number, peer_address
from kit.testbed import Testbed

NUMBER = 0x4000


def drive(testbed: Testbed) -> None:
    client, peer = testbed.client(), testbed.peer()
    client.allocate()
    far = ("2001:db8::1", 7000)
    response = client.request(CHANNEL_BIND, [channel_number(NUMBER), peer_address(far)])
    testbed.expect_error(response, 443, "a ChannelBind to an IPv6 peer")
    if response is not None and not response.is_success:
        testbed.expect_success(client.bind_channel(NUMBER, peer), "a ChannelBind of the number to an IPv4 peer")
