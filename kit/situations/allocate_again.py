"""RFC 8656, section 7.2: an Allocate of a client that has an allocation gets 437.

The transaction id is a new one, so it is no retransmission. A right server responds with 437
(Allocation Mismatch), and the allocation that exists is still usable.

Judged by turnaudit: R20 if the request succeeds. By a check: the code, and that data is relayed from
the first relayed transport address.
"""

from kit.messages import ALLOCATE, transport
from kit.testbed import Testbed


def drive(testbed: Testbed) -> None:
    client, peer = testbed.client(), testbed.peer()
    client.allocate()
    response = client.request(ALLOCATE, [transport()])
    testbed.expect_error(response, 437, "a second Allocate")
    client.permit(peer)
    client.send_to(peer, b"by the first allocation")
    peer.receives(b"by the first allocation", client)
