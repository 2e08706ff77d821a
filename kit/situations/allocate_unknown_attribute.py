"""RFC 8489, section 6.3.1: an Allocate with an unknown comprehension-required attribute gets 420.

The request is signed, so that authentication doesn't refuse it first. A right server lists 0x7F00
in UNKNOWN-ATTRIBUTES, and makes no allocation: the same client can then allocate.

Judged by turnaudit: R19 if the response lacks UNKNOWN-ATTRIBUTES. By a check: the code, and that the
type is listed.
"""

from kit.messages import ALLOCATE, transport
from kit.testbed import Testbed

UNASSIGNED = 0x7F00


def drive(testbed: Testbed) -> None:
    client = testbed.client()
    client.challenge()
    response = client.request(ALLOCATE, [transport(), (UNASSIGNED, b"what?")])
    if testbed.expect_error(response, 420, "an Allocate with the attribute 0x7F00"):
        testbed.check(UNASSIGNED in response.unknown, "UNKNOWN-ATTRIBUTES lists 0x7F00", response.unknown)
        client.allocate()
