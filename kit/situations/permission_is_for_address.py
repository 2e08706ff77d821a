"""RFC 8656, section 9: a permission is for an IP address, and not for a port.

A CreatePermission names one port of a host. A right server relays to and from each port of that
host, and ignores the port in the request: 0 is as good as any.

Judged by turnaudit: R12 to R14. By a check: that the data of each port is relayed.
"""

from kit.testbed import Testbed


def drive(testbed: Testbed) -> None:
    client = testbed.client()
    peers = [testbed.peer(1, port) for port in (7000, 7001, 9)]
    client.allocate()
    testbed.expect_success(client.create_permission(("203.0.113.1", 0)), "a CreatePermission with port 0")
    for peer in peers:
        data = b"port %d" % peer.endpoint[1]
        client.send_to(peer, data)
        peer.receives(data, client)
        peer.send_to(client, data)
        client.receives(data, peer)
