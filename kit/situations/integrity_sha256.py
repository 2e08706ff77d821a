"""RFC 8489, section 14.6: a request signed by MESSAGE-INTEGRITY-SHA256 alone.

A server of RFC 8489 accepts it: the success response is then signed in the same way, with the key
of the request. A server of RFC 5389 doesn't know the attribute, and responds with 401 or 420. Then
this situation isn't judged, since clients use the attribute only with servers that know it.

Judged by turnaudit: R18 if the response isn't signed with the key of its request.
"""

from kit.messages import ALLOCATE, describe, transport
from kit.testbed import Testbed


def drive(testbed: Testbed) -> None:
    client = testbed.client()
    client.challenge()
    response = client.exchange(client.build(ALLOCATE, [transport()], signatures=("sha256",)))
    if response is not None and response.error in (400, 401, 420):
        testbed.not_judged(f"the server doesn't support MESSAGE-INTEGRITY-SHA256: {describe(response)}")
    testbed.expect_success(response, "an Allocate with MESSAGE-INTEGRITY-SHA256")
