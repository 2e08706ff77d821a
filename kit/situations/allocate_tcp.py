"""RFC 8656, section 7.2: a REQUESTED-TRANSPORT other than UDP gets 442.

RFC 8656 defines relayed transport addresses for UDP alone. A right server responds with 442
(Unsupported Transport Protocol) to protocol 6 (TCP) and to protocol 132 (SCTP).

Judged by turnaudit: R16 if a request succeeds. By a check: the code. The 442 itself is R19 if the
request is for UDP.
"""

from kit.messages import ALLOCATE, TCP, transport
from kit.testbed import Testbed

SCTP = 132


def drive(testbed: Testbed) -> None:
    client = testbed.client()
    for name, protocol in (("TCP", TCP), ("SCTP", SCTP)):
        response = client.request(ALLOCATE, [transport(protocol)])
        testbed.expect_error(response, 442, f"an Allocate for {name}")
