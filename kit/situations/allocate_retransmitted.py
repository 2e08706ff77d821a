"""RFC 8656, section 7.2: an Allocate that is sent again gets the same allocation again.

If the success response is lost, the client sends the request again, with the same transaction id.
A right server recognizes it, and responds with success and the same relayed transport address.

Judged by turnaudit: R14 for another address, R20 for another allocation. By a check: that each copy
gets a success response.
"""

from kit.messages import ALLOCATE, XOR_RELAYED_ADDRESS, transport
from kit.testbed import Testbed


def drive(testbed: Testbed) -> None:
    client = testbed.client()
    client.challenge()
    request = client.build(ALLOCATE, [transport()])
    first = client.exchange(request)
    if not testbed.expect_success(first, "an Allocate"):
        return
    for copy in ("the second copy", "the third copy"):
        again = client.exchange(request)
        if testbed.expect_success(again, f"{copy} of the Allocate"):
            same = again.address(XOR_RELAYED_ADDRESS) == first.address(XOR_RELAYED_ADDRESS)
            testbed.check(same, "the relayed transport address is the same", again.address(XOR_RELAYED_ADDRESS))
