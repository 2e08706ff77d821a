"""RFC 8656, section 12.2: a ChannelBind creates a permission for the peer's IP address.

After a ChannelBind no CreatePermission is needed. A right server relays a Send indication to
another port of the peer's host, and what comes from there.

Judged by turnaudit: R12 to R14. By a check: that all of it is relayed.
"""

from kit.testbed import Testbed


def drive(testbed: Testbed) -> None:
    client, peer, other_port = testbed.client(), testbed.peer(1, 7000), testbed.peer(1, 7001)
    client.allocate()
    client.bind(0x4000, peer)
    client.send_to(other_port, b"to another port")
    other_port.receives(b"to another port", client)
    other_port.send_to(client, b"from another port")
    client.receives(b"from another port", other_port)
    client.send_to(peer, b"by an indication")
    peer.receives(b"by an indication", client)
