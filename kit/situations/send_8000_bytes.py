"""RFC 8656, section 11.2: 8,000 bytes are relayed whole, or not at all.

A datagram of 8,000 bytes fits the links of the testbed, so that nothing fragments it. A right server
relays it, or discards it if its buffers are smaller. It never relays a part.

Judged by turnaudit: R13 for a part. Whether it is relayed is noted.
"""

from kit.testbed import Testbed

SIZE = 8000


def drive(testbed: Testbed) -> None:
    client, peer = testbed.client(), testbed.peer()
    client.allocate()
    client.permit(peer)
    data = bytes(number % 251 for number in range(SIZE))
    client.send_to(peer, data)
    if peer.socket.receive(testbed.quiet) is None:
        testbed.note("8,000 bytes aren't relayed to the peer")
    peer.send_to(client, data)
    if client.next_data(testbed.quiet) is None:
        testbed.note("8,000 bytes aren't relayed to the client")
    client.send_to(peer, b"short")
    peer.receives(b"short", client)
