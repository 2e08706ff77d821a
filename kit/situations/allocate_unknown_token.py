"""RFC 8656, section 7.2: a RESERVATION-TOKEN that the server didn't issue gets 508.

A right server checks that the token is valid: it was returned by this server, within the time for
which the port is reserved. Otherwise it refuses with 508 (Insufficient Capacity).

Judged by turnaudit: R14 for an address outside of the relay range. By a check: the code, and that the
client can then allocate without a token, since nothing was made for it.
"""

from kit.messages import ALLOCATE, RESERVATION_TOKEN, transport
from kit.testbed import Testbed


def drive(testbed: Testbed) -> None:
    client = testbed.client()
    for token in (b"notatokn", bytes(8)):
        response = client.request(ALLOCATE, [transport(), (RESERVATION_TOKEN, token)])
        testbed.expect_error(response, 508, f"an Allocate with the unknown RESERVATION-TOKEN {token.hex()}")
    client.allocate()
    testbed.expect_success(client.refresh(600), "a Refresh of the allocation")
