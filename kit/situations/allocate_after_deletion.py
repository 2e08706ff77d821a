"""RFC 8656, section 7.2: a client that deleted its allocation can make another at once.

The new allocation is one like every other: a second Allocate gets 437 (Allocation Mismatch), and
data is relayed. It is tried five times, since a server may lose the new allocation while it still
closes the old one.

Judged by turnaudit: R20 if a second Allocate succeeds, R19 for 437 to the new one. By a check: the
codes, and that data is relayed.
"""

from kit.messages import ALLOCATE, transport
from kit.testbed import Testbed


def drive(testbed: Testbed) -> None:
    client, peer = testbed.client(), testbed.peer()
    client.allocate()
    for turn in range(5):
        testbed.expect_success(client.refresh(0), "a Refresh with LIFETIME 0")
        client.allocate()
        testbed.settle()
        response = client.request(ALLOCATE, [transport()])
        testbed.expect_error(response, 437, f"a second Allocate after the new one ({turn + 1} of 5)")
    client.permit(peer)
    client.send_to(peer, b"by the last allocation")
    peer.receives(b"by the last allocation", client)
