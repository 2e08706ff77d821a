"""RFC 8656, section 12: after its end a channel's number and its peer are free again.

Allocation and permissions are renewed, and the channel isn't. A second after 600 seconds and the
grace the client binds the number to another peer, and the first peer to another number. A right
server responds with success to both, and relays by the new bindings.

Judged by turnaudit: R12 for data to the old peer. By a check: the responses.
"""

from kit.testbed import GRACE, Testbed

SECONDS = 610
FIRST, SECOND, CHANNEL = 0x4000, 0x4001, 600


def drive(testbed: Testbed) -> None:
    client, peer, other = testbed.client(), testbed.peer(1), testbed.peer(2)
    client.allocate()
    begin = testbed.now()
    client.bind(FIRST, peer)
    for moment in (200, 400):
        testbed.wait_until(begin + moment)
        testbed.expect_success(client.refresh(600), f"a Refresh at {moment} seconds")
    testbed.wait_until(begin + CHANNEL + GRACE + 1)
    testbed.expect_success(client.bind_channel(FIRST, other), "a ChannelBind of the number to another peer")
    testbed.expect_success(client.bind_channel(SECOND, peer), "a ChannelBind of another number to the peer")
    client.send_on(FIRST, b"to the other peer")
    other.receives(b"to the other peer", client)
    client.send_on(SECOND, b"to the first peer")
    peer.receives(b"to the first peer", client)
