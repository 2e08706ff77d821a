"""RFC 8656, section 9: a permission ends 300 seconds after the CreatePermission.

A second before the end a right server relays in both directions. A second after the end, and the
grace of the policy, it relays nothing, until the permission is created anew.

Judged by turnaudit: R7 for what is relayed afterwards. By a check: that data is relayed before.
"""

from kit.testbed import GRACE, Testbed

SECONDS = 305
PERMISSION = 300


def drive(testbed: Testbed) -> None:
    client, peer = testbed.client(), testbed.peer()
    client.allocate()
    begin = testbed.now()
    client.permit(peer)
    testbed.wait_until(begin + PERMISSION - 1)
    client.send_to(peer, b"a second before")
    peer.receives(b"a second before", client)
    peer.send_to(client, b"a second before")
    client.receives(b"a second before", peer)
    testbed.wait_until(begin + PERMISSION + GRACE + 1)
    client.send_to(peer, b"a second after")
    peer.send_to(client, b"a second after")
    peer.receives_nothing()
    client.receives_nothing()
    client.permit(peer)
    client.send_to(peer, b"permitted anew")
    peer.receives(b"permitted anew", client)
