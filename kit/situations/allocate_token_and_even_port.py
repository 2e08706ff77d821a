"""RFC 8656, section 7.2: RESERVATION-TOKEN and EVEN-PORT in one Allocate get 400.

The two contradict each other: the token names a port that is reserved already. A right server
responds with 400 (Bad Request), and makes no allocation. The same client can then allocate.

Judged by turnaudit: R20 if the client has an allocation after all. By a check: the code, and that the
client can then allocate.
"""

from kit.messages import ALLOCATE, RESERVATION_TOKEN, even_port, transport
from kit.testbed import Testbed


def drive(testbed: Testbed) -> None:
    client = testbed.client()
    attributes = [transport(), even_port(), (RESERVATION_TOKEN, b"notatokn")]
    response = client.request(ALLOCATE, attributes)
    testbed.expect_error(response, 400, "an Allocate with RESERVATION-TOKEN and EVEN-PORT")
    client.allocate()
    testbed.expect_success(client.refresh(600), "a Refresh of the allocation")
