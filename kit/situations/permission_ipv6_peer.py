"""RFC 8656, section 10.2: a CreatePermission for an IPv6 peer of an IPv4 allocation gets 443.

The address family of each peer has to be that of the relayed transport address. A right server
responds with 443 (Peer Address Family Mismatch).

Judged by turnaudit: R12 if the request succeeds. By a check: the code.
"""

from kit.messages import CREATE_PERMISSION, peer_address
from kit.testbed import Testbed


def drive(testbed: Testbed) -> None:
    client = testbed.client()
    client.allocate()
    peer = ("2001:db8::1", 7000)
    response = client.request(CREATE_PERMISSION, [peer_address(peer)])
    testbed.expect_error(response, 443, "a CreatePermission for an IPv6 peer")
    # The same request for an IPv4 peer is right.
    testbed.expect_success(client.create_permission(testbed.peer()), "a CreatePermission for an IPv4 peer")
