"""RFC 8656, section 7.2: ADDITIONAL-ADDRESS-FAMILY with IPv6 gets an IPv4 address even without IPv6.

A right server without an IPv6 address grants the IPv4 one, and says in ADDRESS-ERROR-CODE why
there is no other. A server that ignores the comprehension-optional attribute grants it as well.

Judged by turnaudit: R14 for an address outside of the relay range. By a check: that it succeeds.
Whether there is an ADDRESS-ERROR-CODE is noted.
"""

from kit.messages import ADDRESS_ERROR_CODE, ALLOCATE, IPV6, XOR_RELAYED_ADDRESS, additional_family, transport
from kit.testbed import Testbed


def drive(testbed: Testbed) -> None:
    client = testbed.client()
    response = client.request(ALLOCATE, [transport(), additional_family(IPV6)])
    if testbed.expect_success(response, "an Allocate with ADDITIONAL-ADDRESS-FAMILY IPv6"):
        relayed = response.address(XOR_RELAYED_ADDRESS)
        testbed.check(relayed is not None, "XOR-RELAYED-ADDRESS is an IPv4 address", str(response.get(XOR_RELAYED_ADDRESS)))
        has_reason = response.get(ADDRESS_ERROR_CODE) is not None
        testbed.note(f"the response has {'an' if has_reason else 'no'} ADDRESS-ERROR-CODE")
