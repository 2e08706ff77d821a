"""RFC 8489, section 6.3.1: an unknown comprehension-required attribute gets 420.

Types from 0x0000 to 0x7FFF have to be understood. A right server responds with 420 (Unknown
Attribute), and lists the types that it doesn't know in UNKNOWN-ATTRIBUTES. 0x7F00 isn't assigned.

Judged by turnaudit: R19 if the response lacks UNKNOWN-ATTRIBUTES. By a check: the code, and that the
type is listed.
"""

from kit.testbed import Testbed

UNASSIGNED = 0x7F00


def drive(testbed: Testbed) -> None:
    client = testbed.client()
    response = client.binding((UNASSIGNED, b"what?"))
    if testbed.expect_error(response, 420, "a Binding request with the attribute 0x7F00"):
        listed = response.unknown
        testbed.check(UNASSIGNED in listed, "UNKNOWN-ATTRIBUTES lists 0x7F00", listed)
    testbed.expect_alive(client)
