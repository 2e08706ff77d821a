"""RFC 8656, section 7.2: REQUESTED-ADDRESS-FAMILY IPv6 gets 440 from a server that has no IPv6 address.

The server of the testbed has an IPv4 address alone. A right server responds with 440 (Address
Family not Supported), and doesn't grant an IPv4 address instead. The client can then allocate.

Judged by turnaudit: R16 if the request succeeds. By a check: the code, and that the client can then
allocate.
"""

from kit.messages import ALLOCATE, IPV6, family, transport
from kit.testbed import Testbed


def drive(testbed: Testbed) -> None:
    client = testbed.client()
    response = client.request(ALLOCATE, [transport(), family(IPV6)])
    testbed.expect_error(response, 440, "an Allocate for IPv6")
    testbed.expect_alive(client)
    if response is not None and response.error is not None:
        client.allocate()
