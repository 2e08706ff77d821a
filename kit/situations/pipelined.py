"""RFC 8656, section 11.2: what a client sends without waiting is worked on in any order.

The client sends its ChannelBind, data on the channel and a Send indication in one burst, before any
response. UDP doesn't keep an order, so a right server may discard what comes before the binding.
What it relays, it relays right, and every request gets its response.

Judged by turnaudit: each relayed datagram. By a check: the responses.
"""

from kit.messages import CHANNEL_BIND, CREATE_PERMISSION, channel_number, peer_address
from kit.testbed import Testbed

NUMBER = 0x4000


def drive(testbed: Testbed) -> None:
    client, peer = testbed.client(), testbed.peer()
    client.allocate()
    to_peer = peer_address(peer.endpoint)
    for turn in range(10):
        permit = client.build(CREATE_PERMISSION, [to_peer])
        bind = client.build(CHANNEL_BIND, [channel_number(NUMBER), to_peer])
        client.send_on(NUMBER, b"before the binding %d" % turn)
        client.send(permit)
        client.send_to(peer, b"after the permission %d" % turn)
        client.send(bind)
        client.send_on(NUMBER, b"after the binding %d" % turn)
        peer.send_to(client, b"of the peer %d" % turn)
        testbed.expect_success(client.response_to(permit), "a CreatePermission in a burst")
        testbed.expect_success(client.response_to(bind), "a ChannelBind in a burst")
    testbed.settle()
