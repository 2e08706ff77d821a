"""RFC 8656, section 10.2: a CreatePermission that is sent again gets a success response again.

The second copy refreshes the permission, or gets the remembered response. A right server responds
with success to each copy, and relays.

Judged by turnaudit: each response. By a check: that each copy gets one.
"""

from kit.messages import CREATE_PERMISSION, peer_address
from kit.testbed import Testbed


def drive(testbed: Testbed) -> None:
    client, peer = testbed.client(), testbed.peer()
    client.allocate()
    request = client.build(CREATE_PERMISSION, [peer_address(peer.endpoint)])
    for copy in ("the first copy", "the second copy", "the third copy"):
        testbed.expect_success(client.exchange(request), f"{copy} of the CreatePermission")
    client.send_to(peer, b"with a permission")
    peer.receives(b"with a permission", client)
