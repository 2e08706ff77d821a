"""RFC 8656, section 9: a permission is for one allocation.

Two clients have an allocation, and the first has a permission for a peer. A right server relays
nothing between that peer and the second client.

Judged by turnaudit: R6 for what is relayed for the second client.
"""

from kit.testbed import Testbed


def drive(testbed: Testbed) -> None:
    first, second, peer = testbed.client(1), testbed.client(2), testbed.peer()
    first.allocate()
    second.allocate()
    first.permit(peer)
    peer.send_to(second, b"to the second client")
    second.receives_nothing()
    second.send_to(peer, b"of the second client")
    peer.receives_nothing()
    peer.send_to(first, b"to the first client")
    first.receives(b"to the first client", peer)
