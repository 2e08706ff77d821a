"""RFC 8656, section 6: what is left of a deleted allocation doesn't pass to the next one.

The server has two ports. The first client has a permission, and deletes its allocation. A right
server then relays nothing from the permitted peer: not to the first client, which has no
allocation, and not to those that are granted the ports next, which have no permission.

Judged by turnaudit: R4 for the first client, R6 for the others.
"""

from kit.messages import ALLOCATE, transport
from kit.testbed import Testbed

RELAY = (50000, 50001)


def drive(testbed: Testbed) -> None:
    first, peer = testbed.client(1), testbed.peer()
    first.allocate()
    first.permit(peer)
    testbed.expect_success(first.refresh(0), "a Refresh with LIFETIME 0")
    others = [testbed.client(2), testbed.client(3)]
    for other in others:
        response = other.request(ALLOCATE, [transport()])
        granted = "granted" if response is not None and response.is_success else "not granted"
        testbed.note(f"a port is {granted} to the next client")
        if granted != "granted":
            testbed.expect_error(response, (508, 486), "an Allocate of the next client that isn't granted")
    peer.send_to(first, b"for the deleted allocation")
    for client in (first, *others):
        client.receives_nothing()
