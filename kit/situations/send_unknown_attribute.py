"""RFC 8489, section 6.3.2: a Send indication with an unknown comprehension-required attribute is discarded.

There is no response to an indication, so there is no 420 either. A right server discards the whole
indication: its data isn't relayed.

Judged by a check: that nothing is relayed. turnaudit accepts the datagram if it is relayed right.
"""

from kit.testbed import Testbed

UNASSIGNED = 0x7F00


def drive(testbed: Testbed) -> None:
    client, peer = testbed.client(), testbed.peer()
    client.allocate()
    client.permit(peer)
    client.send_to(peer, b"with the attribute 0x7F00", (UNASSIGNED, b"what?"))
    peer.receives_nothing()
    client.send_to(peer, b"without it")
    peer.receives(b"without it", client)
