"""RFC 8489, section 14.6: a request with MESSAGE-INTEGRITY, and MESSAGE-INTEGRITY-SHA256 after it.

Clients that don't know what the server supports may send both. A right server accepts the request
by either: for one of RFC 5389 nothing after MESSAGE-INTEGRITY counts except FINGERPRINT.

Judged by turnaudit: R18 if the response isn't signed with the key of its request.
"""

from kit.messages import ALLOCATE, CREATE_PERMISSION, peer_address, transport
from kit.testbed import Testbed


def drive(testbed: Testbed) -> None:
    client, peer = testbed.client(), testbed.peer()
    client.challenge()
    both = ("sha1", "sha256")
    response = client.exchange(client.build(ALLOCATE, [transport()], signatures=both))
    if testbed.expect_success(response, "an Allocate with both integrities"):
        request = client.build(CREATE_PERMISSION, [peer_address(peer.endpoint)], signatures=both)
        testbed.expect_success(client.exchange(request), "a CreatePermission with both integrities")
