"""RFC 8656, section 7.2: an Allocate with EVEN-PORT gets an even port.

A right server grants a relayed transport address with an even port, or refuses with 508
(Insufficient Capacity). Eight clients request it, so that no server has eight even ports by chance.

Judged by turnaudit: R14 for an odd port. By a check: the code if it is refused.
"""

from kit.messages import ALLOCATE, XOR_RELAYED_ADDRESS, even_port, transport
from kit.testbed import Testbed


def drive(testbed: Testbed) -> None:
    for host in range(1, 9):
        client = testbed.client(host)
        response = client.request(ALLOCATE, [transport(), even_port()])
        if response is not None and response.is_success:
            relayed = response.address(XOR_RELAYED_ADDRESS)
            testbed.check(relayed is not None and relayed[1] % 2 == 0, "the relayed port is even", relayed)
        else:
            testbed.expect_error(response, 508, "an Allocate with EVEN-PORT that isn't granted")
