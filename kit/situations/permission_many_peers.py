"""RFC 8656, section 10.2: one CreatePermission creates a permission for each peer that it names.

The request has four XOR-PEER-ADDRESS attributes. A right server permits all four, not the first
or the last alone.

Judged by turnaudit: R6, R12 to R14. By a check: that the data of each is relayed.
"""

from kit.testbed import Testbed


def drive(testbed: Testbed) -> None:
    client = testbed.client()
    peers = [testbed.peer(host) for host in range(1, 5)]
    client.allocate()
    testbed.expect_success(client.create_permission(*peers), "a CreatePermission for four peers")
    for number, peer in enumerate(peers):
        client.send_to(peer, b"to peer %d" % number)
        peer.receives(b"to peer %d" % number, client)
        peer.send_to(client, b"of peer %d" % number)
        client.receives(b"of peer %d" % number, peer)
