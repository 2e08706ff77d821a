"""RFC 8656, section 9: an allocation without any permission relays nothing.

Directly after the Allocate a peer sends to the relayed transport address, and the client sends an
indication to the peer. A right server discards both. After a CreatePermission it relays what comes
then, and nothing of what came before.

Judged by turnaudit: R6 for what is relayed too early.
"""

from kit.testbed import Testbed


def drive(testbed: Testbed) -> None:
    client, peer = testbed.client(), testbed.peer()
    client.allocate()
    peer.send_to(client, b"too early")
    client.receives_nothing()
    client.send_to(peer, b"too early")
    peer.receives_nothing()
    client.permit(peer)
    peer.send_to(client, b"with a permission")
    client.receives(b"with a permission", peer)
