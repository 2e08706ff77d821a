"""RFC 8656, section 7.2: ADDITIONAL-ADDRESS-FAMILY with IPv4 gets 400.

The attribute requests an IPv6 address in addition to the IPv4 one. A right server responds with
400 (Bad Request) if its value is 0x01.

Judged by a check: the code, and that the client can then allocate. turnaudit doesn't read the attribute, which
is comprehension-optional: for it a success response with an IPv4 address is right.
"""

from kit.messages import ALLOCATE, IPV4, additional_family, transport
from kit.testbed import Testbed


def drive(testbed: Testbed) -> None:
    client = testbed.client()
    response = client.request(ALLOCATE, [transport(), additional_family(IPV4)])
    testbed.expect_error(response, 400, "an Allocate with ADDITIONAL-ADDRESS-FAMILY IPv4")
    if response is not None and not response.is_success:
        # Nothing was allocated.
        client.allocate()
