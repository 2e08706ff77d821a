"""RFC 8489, section 9.2.4: each method without MESSAGE-INTEGRITY gets 401.

RFC 8656 requires the long-term credential of each request (section 5), not of the first alone. A
right server responds with 401 to a Refresh, a CreatePermission and a ChannelBind without it, and
the allocation is still usable afterwards.

Judged by turnaudit: R2 if a request succeeds. By a check: the code.
"""

from kit.messages import CHANNEL_BIND, CREATE_PERMISSION, REFRESH, REQUEST, channel_number, encode, lifetime, peer_address
from kit.testbed import Testbed


def drive(testbed: Testbed) -> None:
    client, peer = testbed.client(), testbed.peer()
    client.allocate()
    to_peer = peer_address(peer.endpoint)
    for name, method, attributes in (
        ("Refresh", REFRESH, [lifetime(0)]),
        ("CreatePermission", CREATE_PERMISSION, [to_peer]),
        ("ChannelBind", CHANNEL_BIND, [channel_number(0x4000), to_peer]),
    ):
        response = client.exchange(encode(method | REQUEST, client.transaction(), attributes))
        testbed.expect_error(response, 401, f"a {name} without credentials")
    client.permit(peer)
    client.send_to(peer, b"the allocation is still usable")
    peer.receives(b"the allocation is still usable", client)
