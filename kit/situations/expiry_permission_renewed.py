"""RFC 8656, section 9: a CreatePermission before the end renews the permission for 300 seconds.

The permission is renewed after 200 seconds. A right server relays a second before 500 seconds, and
not a second after that and the grace.

Judged by turnaudit: R7 for what is relayed afterwards. By a check: that data is relayed before.
"""

from kit.testbed import GRACE, Testbed

SECONDS = 505
RENEWAL, PERMISSION = 200, 300


def drive(testbed: Testbed) -> None:
    client, peer = testbed.client(), testbed.peer()
    client.allocate()
    begin = testbed.now()
    client.permit(peer)
    testbed.wait_until(begin + RENEWAL)
    renewed = testbed.now()
    client.permit(peer)
    for name, moment in ((b"past the first end", begin + PERMISSION + GRACE + 1), (b"a second before", renewed + PERMISSION - 1)):
        testbed.wait_until(moment)
        client.send_to(peer, name)
        peer.receives(name, client)
    testbed.wait_until(renewed + PERMISSION + GRACE + 1)
    client.send_to(peer, b"a second after")
    peer.send_to(client, b"a second after")
    peer.receives_nothing()
    client.receives_nothing()
