"""RFC 8656, section 9: permissions end with their allocation.

The client has a permission and a channel, deletes its allocation, and makes another. A right server
relays nothing by the new one until a permission is created for it, and its channels aren't bound.

Judged by turnaudit: R6, R8 for what is relayed by the leases of the first allocation.
"""

from kit.testbed import Testbed

NUMBER = 0x4000


def drive(testbed: Testbed) -> None:
    client, peer = testbed.client(), testbed.peer()
    client.allocate()
    client.permit(peer)
    client.bind(NUMBER, peer)
    testbed.expect_success(client.refresh(0), "a Refresh with LIFETIME 0")
    # Some servers close an allocation within a second.
    testbed.wait(1.5)
    client.allocate()
    client.send_to(peer, b"by an old permission")
    client.send_on(NUMBER, b"on an old channel")
    peer.receives_nothing()
    peer.send_to(client, b"by an old permission")
    client.receives_nothing()
    client.permit(peer)
    client.send_to(peer, b"by a new permission")
    peer.receives(b"by a new permission", client)
