"""RFC 8656, section 7.2: an Allocate without REQUESTED-TRANSPORT gets 400.

The attribute is mandatory. A right server responds with 400 (Bad Request), and makes no
allocation: the same client can then allocate.

Judged by turnaudit: R16 if the request succeeds. By a check: the code, and that the client can then
allocate.
"""

from kit.messages import ALLOCATE
from kit.testbed import Testbed


def drive(testbed: Testbed) -> None:
    client = testbed.client()
    client.challenge()
    response = client.request(ALLOCATE, [])
    testbed.expect_error(response, 400, "an Allocate without REQUESTED-TRANSPORT")
    client.allocate()
    testbed.expect_success(client.refresh(600), "a Refresh of the allocation")
