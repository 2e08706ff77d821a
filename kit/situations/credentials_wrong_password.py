"""RFC 8489, section 9.2.4: a request whose MESSAGE-INTEGRITY is wrong gets 401, and does nothing.

The user exists, and the request is signed with another password. A right server responds to each
method with 401 (Unauthenticated), REALM and NONCE. It makes no allocation, and an allocation that
exists is still usable afterwards.

Judged by turnaudit: R2 if a request succeeds. By a check: the code.
"""

from kit.client import User
from kit.messages import ALLOCATE, CHANNEL_BIND, CREATE_PERMISSION, REFRESH, channel_number, lifetime, peer_address, transport
from kit.testbed import REALM, USER, Testbed


def drive(testbed: Testbed) -> None:
    client, peer = testbed.client(), testbed.peer()
    wrong = User(USER.name, "another password", REALM)
    client.challenge()
    response = client.exchange(client.build(ALLOCATE, [transport()], wrong))
    testbed.expect_error(response, 401, "an Allocate signed with another password")
    client.allocate()
    to_peer = peer_address(peer.endpoint)
    for method, attributes in (
        (REFRESH, [lifetime(0)]),
        (CREATE_PERMISSION, [to_peer]),
        (CHANNEL_BIND, [channel_number(0x4000), to_peer]),
    ):
        response = client.exchange(client.build(method, attributes, wrong))
        testbed.expect_error(response, 401, f"a request of method {method} signed with another password")
    client.permit(peer)
    client.send_to(peer, b"the allocation is still usable")
    peer.receives(b"the allocation is still usable", client)
