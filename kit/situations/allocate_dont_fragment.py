"""RFC 8656, section 7.2: DONT-FRAGMENT in an Allocate is supported, or gets 420.

With DONT-FRAGMENT a client learns whether the server can set the DF bit. A right server that can
responds with success. One that can't treats the attribute as an unknown comprehension-required
one: 420 with UNKNOWN-ATTRIBUTES.

Judged by turnaudit: R19 if a 420 lacks UNKNOWN-ATTRIBUTES. By a check: the code. Which of the two
the server does is noted.
"""

from kit.messages import ALLOCATE, DONT_FRAGMENT, transport
from kit.testbed import Testbed


def drive(testbed: Testbed) -> None:
    client = testbed.client()
    response = client.request(ALLOCATE, [transport(), (DONT_FRAGMENT, b"")])
    if response is not None and response.is_success:
        testbed.note("the server supports DONT-FRAGMENT")
    elif testbed.expect_error(response, 420, "an Allocate with DONT-FRAGMENT that isn't supported"):
        testbed.note("the server doesn't support DONT-FRAGMENT")
        testbed.check(DONT_FRAGMENT in response.unknown, "UNKNOWN-ATTRIBUTES lists DONT-FRAGMENT", response.unknown)
