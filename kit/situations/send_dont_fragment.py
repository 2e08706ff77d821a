"""RFC 8656, section 11.2: a Send indication with DONT-FRAGMENT is relayed with the DF bit, or discarded.

A server that supports the attribute sets the DF bit of the datagram. One that doesn't treats it as
an unknown comprehension-required attribute, and discards the indication. Which of the two is noted.

Judged by turnaudit: R12 to R14 for what is relayed. It doesn't check the DF bit.
"""

from kit.messages import DONT_FRAGMENT
from kit.testbed import Testbed


def drive(testbed: Testbed) -> None:
    client, peer = testbed.client(), testbed.peer()
    client.allocate()
    client.permit(peer)
    client.send_to(peer, b"not to be fragmented", (DONT_FRAGMENT, b""))
    is_relayed = peer.socket.receive(testbed.quiet) is not None
    testbed.note(f"a Send indication with DONT-FRAGMENT is {'relayed' if is_relayed else 'discarded'}")
    client.send_to(peer, b"without it")
    peer.receives(b"without it", client)
