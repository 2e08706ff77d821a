"""RFC 8656, section 7.2: if no port is left, an Allocate gets 508.

The relay range has four ports, and six clients request one each. A right server never grants one
address to two clients. Those that are left get 508 (Insufficient Capacity).

Judged by turnaudit: R22 for one address of two clients, R14 for one outside of the range. By a check:
the code.
"""

from kit.messages import ALLOCATE, XOR_RELAYED_ADDRESS, transport
from kit.testbed import Testbed

RELAY = (50000, 50003)


def drive(testbed: Testbed) -> None:
    granted = []
    for host in range(1, 7):
        response = testbed.client(host).request(ALLOCATE, [transport()])
        if response is not None and response.is_success:
            granted.append(response.address(XOR_RELAYED_ADDRESS))
        else:
            testbed.expect_error(response, 508, f"the Allocate of client {host}, with {len(granted)} of 4 ports in use")
    testbed.note(f"{len(granted)} of 4 ports were granted")
    testbed.check(0 < len(granted) <= 4, "at least one and at most four clients get an address", str(len(granted)))
