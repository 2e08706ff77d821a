"""RFC 8656, section 12.2: a number that is bound to another peer gets 400.

A number has one peer. A right server responds with 400 (Bad Request) to a ChannelBind of the number
to another peer, or to another port of the same host. The first binding stays.

Judged by turnaudit: R11 if the request succeeds, R12 if data goes to the other peer.
"""

from kit.testbed import Testbed

NUMBER = 0x4000


def drive(testbed: Testbed) -> None:
    client, peer = testbed.client(), testbed.peer(1)
    client.allocate()
    client.bind(NUMBER, peer)
    for other in (testbed.peer(2), testbed.peer(1, 7001)):
        response = client.bind_channel(NUMBER, other)
        testbed.expect_error(response, 400, f"a ChannelBind of the number to {other.endpoint[0]}:{other.endpoint[1]}")
    client.send_on(NUMBER, b"to the first peer")
    peer.receives(b"to the first peer", client)
