"""RFC 8656, section 8.2: a Refresh with LIFETIME 0 deletes the allocation.

A right server responds with LIFETIME 0. From then on it relays nothing for the client, in either
direction, and a Refresh with LIFETIME 600 gets 437 (Allocation Mismatch).

Judged by turnaudit: R15 for another LIFETIME, R4 for what is relayed or refreshed afterwards.
"""

from kit.testbed import Testbed


def drive(testbed: Testbed) -> None:
    client, peer = testbed.client(), testbed.peer()
    client.allocate()
    client.permit(peer)
    client.send_to(peer, b"before the deletion")
    peer.receives(b"before the deletion", client)
    response = client.refresh(0)
    if testbed.expect_success(response, "a Refresh with LIFETIME 0"):
        testbed.check(response.lifetime == 0, "LIFETIME is 0", response.lifetime)
    testbed.expect_error(client.refresh(600), 437, "a Refresh after the deletion")
    client.send_to(peer, b"after the deletion")
    peer.receives_nothing()
    peer.send_to(client, b"after the deletion")
    client.receives_nothing()
