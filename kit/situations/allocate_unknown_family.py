"""RFC 8656, section 7.2: a REQUESTED-ADDRESS-FAMILY that doesn't exist gets 440 or 400.

Only 0x01 and 0x02 are defined. A right server responds with 440 (Address Family not Supported),
or with 400 (Bad Request), since the value isn't one that the attribute may have.

Judged by turnaudit: R16 if the request succeeds. By a check: the code, and that the server goes on.
"""

from kit.messages import ALLOCATE, family, transport
from kit.testbed import Testbed

UNDEFINED = (0x00, 0x03)


def drive(testbed: Testbed) -> None:
    client = testbed.client()
    for number in UNDEFINED:
        response = client.request(ALLOCATE, [transport(), family(number)])
        testbed.expect_error(response, (440, 400), f"an Allocate for the address family 0x{number:02X}")
    testbed.expect_alive(client)
