"""RFC 8656, section 8.2: a Refresh without LIFETIME sets the default lifetime again.

Without LIFETIME the server uses its default, as for an Allocate. A right server responds with a
LIFETIME that isn't 0, also if the client refreshes twice, and the allocation is still usable.

Judged by turnaudit: R15 for LIFETIME 0. By a check: that the lifetime is the default.
"""

from kit.testbed import Testbed


def drive(testbed: Testbed) -> None:
    client, peer = testbed.client(), testbed.peer()
    default = client.allocate().lifetime
    for count in ("a Refresh", "a second Refresh"):
        response = client.refresh()
        if testbed.expect_success(response, f"{count} without LIFETIME"):
            testbed.expect_lifetime(response.lifetime, default, default, f"the response to {count}")
    client.permit(peer)
    client.send_to(peer, b"after the Refresh")
    peer.receives(b"after the Refresh", client)
