"""RFC 8656, section 12.2: a ChannelBind that refreshes a binding renews the permission, too.

The channel is bound, and bound again after 200 seconds. A right server relays the peer's data at
302 seconds and a second before 500 seconds, and not a second after that and the grace.

Judged by turnaudit: R7 for what is relayed afterwards. By a check: that data is relayed before.
"""

from kit.testbed import GRACE, Testbed

SECONDS = 505
NUMBER, RENEWAL, PERMISSION = 0x4000, 200, 300


def drive(testbed: Testbed) -> None:
    client, peer = testbed.client(), testbed.peer()
    client.allocate()
    begin = testbed.now()
    client.bind(NUMBER, peer)
    testbed.wait_until(begin + RENEWAL)
    renewed = testbed.now()
    client.bind(NUMBER, peer)
    for moment in (begin + PERMISSION + GRACE + 1, renewed + PERMISSION - 1):
        testbed.wait_until(moment)
        peer.send_to(client, b"permitted by the second ChannelBind")
        client.receives(b"permitted by the second ChannelBind", channel=NUMBER)
    testbed.wait_until(renewed + PERMISSION + GRACE + 1)
    peer.send_to(client, b"a second after")
    client.receives_nothing()
