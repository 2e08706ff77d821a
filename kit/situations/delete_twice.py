"""RFC 8656, section 8.2: a second Refresh with LIFETIME 0 gets 437, or success again.

RFC 8656 expects 437 (Allocation Mismatch) for a deletion that is sent again, which the client takes
for a success. A server that remembers its response sends that again. turnaudit accepts both. The
first copy comes twice with one transaction id, then once with another.

Judged by turnaudit: R15 for another LIFETIME than 0. By a check: the kind of response.
"""

from kit.messages import REFRESH, lifetime
from kit.testbed import Testbed


def drive(testbed: Testbed) -> None:
    client = testbed.client()
    client.allocate()
    request = client.build(REFRESH, [lifetime(0)])
    testbed.expect_success(client.exchange(request), "a Refresh with LIFETIME 0")
    for name, response in (("the same request again", client.exchange(request)), ("another Refresh with LIFETIME 0", client.refresh(0))):
        if response is not None and response.is_success:
            testbed.check(response.lifetime == 0, f"{name} gets LIFETIME 0", response.lifetime)
        else:
            # A server that makes a nonce for each session may challenge a client whose session has ended.
            testbed.expect_error(response, (437, 438, 401), name)
