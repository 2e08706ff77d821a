"""RFC 8656, section 12: a channel binding ends 600 seconds after the ChannelBind.

Allocation and permission are renewed, so that only the channel ends. A second before the end a
right server relays by it. A second after the end and the grace it discards ChannelData of the
client, and sends the peer's data in a Data indication.

Judged by turnaudit: R9 for ChannelData afterwards. By a check: that data is relayed before.
"""

from kit.testbed import GRACE, Testbed

SECONDS = 610
NUMBER, CHANNEL = 0x4000, 600


def drive(testbed: Testbed) -> None:
    client, peer = testbed.client(), testbed.peer()
    client.allocate()
    begin = testbed.now()
    client.bind(NUMBER, peer)
    for moment in (200, 400, 590):
        testbed.wait_until(begin + moment)
        testbed.expect_success(client.refresh(600), f"a Refresh at {moment} seconds")
        client.permit(peer)
    testbed.wait_until(begin + CHANNEL - 1)
    client.send_on(NUMBER, b"a second before")
    peer.receives(b"a second before", client)
    peer.send_to(client, b"a second before")
    client.receives(b"a second before", channel=NUMBER)
    testbed.wait_until(begin + CHANNEL + GRACE + 1)
    client.send_on(NUMBER, b"a second after")
    peer.receives_nothing()
    peer.send_to(client, b"a second after")
    client.receives(b"a second after", peer)
