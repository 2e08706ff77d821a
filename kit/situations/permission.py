"""RFC 8656, section 10.2: a CreatePermission permits data of one peer, in both directions.

A right server responds with success. Then it relays a Send indication to the peer as a datagram
from the relayed transport address, and what the peer sends there as a Data indication.

Judged by turnaudit: R12 to R14 for peer, data and address. By a check: that all of it is relayed.
"""

from kit.testbed import Testbed


def drive(testbed: Testbed) -> None:
    client, peer = testbed.client(), testbed.peer()
    client.allocate()
    testbed.expect_success(client.create_permission(peer), "a CreatePermission")
    for count in range(3):
        client.send_to(peer, b"up %d" % count)
        peer.receives(b"up %d" % count, client)
        peer.send_to(client, b"down %d" % count)
        client.receives(b"down %d" % count, peer)
