"""RFC 8489, section 9.2.4: a NONCE that isn't valid gets 438 with a new one.

The server never issued this nonce; the request is right otherwise. A right server responds with 438
(Stale Nonce), REALM and a new NONCE. With that the request succeeds.

Judged by turnaudit: R19 if the response lacks REALM or NONCE. By a check: the code.
"""

from kit.messages import NONCE, REFRESH, lifetime
from kit.testbed import Testbed


def drive(testbed: Testbed) -> None:
    client = testbed.client()
    client.allocate()
    response = client.exchange(client.build(REFRESH, [lifetime(600)], nonce=b"a nonce of nobody"))
    if testbed.expect_error(response, 438, "a Refresh with a nonce that the server didn't issue"):
        testbed.check(bool(response.get(NONCE)), "the response has a NONCE")
        client.take_nonce(response)
    testbed.expect_success(client.refresh(600), "a Refresh with the right nonce")
