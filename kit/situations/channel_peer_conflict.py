"""RFC 8656, section 12.2: a peer that has another number gets 400.

A peer has one number. A right server responds with 400 (Bad Request) to a ChannelBind of another
number to the same peer. The first binding stays, and the second number isn't bound.

Judged by turnaudit: R11 if the request succeeds, R8 if data is relayed on the second number.
"""

from kit.testbed import Testbed

FIRST, SECOND = 0x4000, 0x4001


def drive(testbed: Testbed) -> None:
    client, peer = testbed.client(), testbed.peer()
    client.allocate()
    client.bind(FIRST, peer)
    response = client.bind_channel(SECOND, peer)
    testbed.expect_error(response, 400, "a ChannelBind of another number to the same peer")
    client.send_on(FIRST, b"on the first number")
    peer.receives(b"on the first number", client)
    if response is not None and not response.is_success:
        client.send_on(SECOND, b"on the second number")
        peer.receives_nothing()
