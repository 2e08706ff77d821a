"""RFC 8656, section 12: a ChannelBind of the same number and peer renews the channel for 600 seconds.

The channel is bound again after 100 seconds, and allocation and permission are renewed. A right
server relays by it a second before 700 seconds, and not a second after that and the grace.

Judged by turnaudit: R9 for ChannelData afterwards. By a check: that data is relayed before.
"""

from kit.testbed import GRACE, Testbed

SECONDS = 710
NUMBER, RENEWAL, CHANNEL = 0x4000, 100, 600


def drive(testbed: Testbed) -> None:
    client, peer = testbed.client(), testbed.peer()
    client.allocate()
    begin = testbed.now()
    client.bind(NUMBER, peer)
    testbed.wait_until(begin + RENEWAL)
    renewed = testbed.now()
    client.bind(NUMBER, peer)
    for moment in (200, 400, 690):
        testbed.wait_until(begin + moment)
        testbed.expect_success(client.refresh(600), f"a Refresh at {moment} seconds")
        client.permit(peer)
    testbed.wait_until(renewed + CHANNEL - 1)
    client.send_on(NUMBER, b"a second before")
    peer.receives(b"a second before", client)
    testbed.wait_until(renewed + CHANNEL + GRACE + 1)
    client.send_on(NUMBER, b"a second after")
    peer.receives_nothing()
    peer.send_to(client, b"a second after")
    client.receives(b"a second after", peer)
