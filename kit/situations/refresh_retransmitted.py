"""RFC 8656, section 8.2: a Refresh that is sent again gets a success response again.

If the response is lost, the client sends the same request once more. A right server refreshes the
allocation again, or remembers its response. Both result in a success response.

Judged by turnaudit: each response. By a check: that each copy gets one.
"""

from kit.messages import REFRESH, lifetime
from kit.testbed import Testbed


def drive(testbed: Testbed) -> None:
    client = testbed.client()
    client.allocate()
    request = client.build(REFRESH, [lifetime(900)])
    first = None
    for copy in ("the first copy", "the second copy", "the third copy"):
        response = client.exchange(request)
        if testbed.expect_success(response, f"{copy} of the Refresh"):
            first = first or response.lifetime or 0
            testbed.expect_lifetime(response.lifetime, first, first, f"the response to {copy}")
