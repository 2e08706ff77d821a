"""RFC 8489, section 14: an unknown comprehension-optional attribute is ignored.

Types from 0x8000 to 0xFFFF may be ignored by an agent that doesn't know them. A right server
responds as it would without the attribute. 0xFF00 isn't assigned.

Judged by turnaudit: R17 for another address in the response. By a check: that there is a response,
and that it is a success response. SOFTWARE (0x8022) is optional, too, and most clients send it.
"""

from kit.messages import SOFTWARE
from kit.testbed import Testbed

UNASSIGNED = 0xFF00


def drive(testbed: Testbed) -> None:
    client = testbed.client()
    response = client.binding((SOFTWARE, b"turn kit"), (UNASSIGNED, b"any"))
    testbed.expect_success(response, "a Binding request with the attribute 0xFF00")
    testbed.expect_success(client.binding(), "a Binding request without it")
