"""RFC 8656, section 11.2: a Send indication with an empty DATA is relayed as an empty datagram.

DATA is there, and has no bytes. The datagram that a right server sends has none either. In the
other direction an empty datagram results in a Data indication with an empty DATA. A server that
drops them is noted, since UDP may lose any datagram.

Judged by turnaudit: R13 if data is relayed that wasn't sent.
"""

from kit.testbed import Testbed


def drive(testbed: Testbed) -> None:
    client, peer = testbed.client(), testbed.peer()
    client.allocate()
    client.permit(peer)
    client.send_to(peer, b"")
    if peer.socket.receive(testbed.quiet) is None:
        testbed.note("an empty datagram isn't relayed to the peer")
    peer.send_to(client, b"")
    if client.next_data(testbed.quiet) is None:
        testbed.note("an empty datagram isn't relayed to the client")
    client.send_to(peer, b"not empty")
    peer.receives(b"not empty", client)
