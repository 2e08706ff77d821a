"""RFC 8656, section 7.2: REQUESTED-ADDRESS-FAMILY IPv4 gets an IPv4 relayed transport address.

0x01 requests what a request without the attribute requests. A right server knows the attribute,
and grants an IPv4 address.

Judged by turnaudit: R14 for an address outside of the relay range. By a check: that it succeeds. A
server of RFC 5766 doesn't know the attribute, and responds with 420.
"""

from kit.messages import ALLOCATE, IPV4, REFRESH, XOR_RELAYED_ADDRESS, family, transport
from kit.testbed import Testbed


def drive(testbed: Testbed) -> None:
    client = testbed.client()
    response = client.request(ALLOCATE, [transport(), family(IPV4)])
    if testbed.expect_success(response, "an Allocate for IPv4"):
        relayed = response.address(XOR_RELAYED_ADDRESS)
        testbed.check(relayed is not None, "XOR-RELAYED-ADDRESS is an IPv4 address", str(response.get(XOR_RELAYED_ADDRESS)))
        testbed.expect_success(client.request(REFRESH, [family(IPV4)]), "a Refresh for IPv4")
