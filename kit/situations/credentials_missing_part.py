"""RFC 8489, section 9.2.4: MESSAGE-INTEGRITY without USERNAME, REALM or NONCE gets 400.

A request that has MESSAGE-INTEGRITY needs all three. A right server responds with 400 (Bad
Request) if one is missing, and makes no allocation.

Judged by turnaudit: R2 if a request succeeds. By a check: the code.
"""

from kit.messages import ALLOCATE, NONCE, REALM, USERNAME, transport
from kit.testbed import Testbed


def drive(testbed: Testbed) -> None:
    client = testbed.client()
    client.challenge()
    for name, number in (("USERNAME", USERNAME), ("REALM", REALM), ("NONCE", NONCE)):
        response = client.exchange(client.build(ALLOCATE, [transport()], without=(number,)))
        testbed.expect_error(response, 400, f"a signed Allocate without {name}")
    client.allocate()
    testbed.expect_success(client.refresh(600), "a Refresh with all three")
