"""RFC 8656, section 8.2: a Refresh for IPv6 of an IPv4 allocation gets 443.

REQUESTED-ADDRESS-FAMILY in a Refresh names the relayed transport address that is meant. The
allocation has an IPv4 one alone. A right server responds with 443 (Peer Address Family Mismatch),
and the allocation stays as it was.

Judged by a check: the code. turnaudit doesn't check which family a Refresh names.
"""

from kit.messages import IPV6, REFRESH, family, lifetime
from kit.testbed import Testbed


def drive(testbed: Testbed) -> None:
    client, peer = testbed.client(), testbed.peer()
    client.allocate()
    response = client.request(REFRESH, [lifetime(0), family(IPV6)])
    testbed.expect_error(response, 443, "a Refresh with REQUESTED-ADDRESS-FAMILY IPv6")
    if response is not None and not response.is_success:
        client.permit(peer)
        client.send_to(peer, b"the allocation is still there")
        peer.receives(b"the allocation is still there", client)
