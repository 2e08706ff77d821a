"""RFC 8656, section 11.3: a peer without a permission is ignored.

The client has an allocation and a permission for one host. What another host sends to the relayed
transport address is discarded, and so is a Send indication to it. The server sends no response
to either.

Judged by turnaudit: R6 for what is relayed.
"""

from kit.testbed import Testbed


def drive(testbed: Testbed) -> None:
    client, peer, stranger = testbed.client(), testbed.peer(1), testbed.peer(2)
    client.allocate()
    client.permit(peer)
    stranger.send_to(client, b"from a stranger")
    client.receives_nothing()
    client.send_to(stranger, b"to a stranger")
    stranger.receives_nothing()
    peer.send_to(client, b"from the peer")
    client.receives(b"from the peer", peer)
