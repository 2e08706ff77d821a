"""RFC 8489, section 6.3: a message with a wrong FINGERPRINT is discarded, if the server uses the mechanism.

FINGERPRINT is optional. A right server that uses it discards the request without a response; one
that doesn't ignores the attribute and responds. Either way it responds to the next right request.

Judged by turnaudit: what is responded. By a check: that the server goes on. Which of the two it does
is noted.
"""

from kit.messages import BINDING, FINGERPRINT, REQUEST, encode
from kit.testbed import Testbed


def drive(testbed: Testbed) -> None:
    client = testbed.client()
    wrong = encode(BINDING | REQUEST, client.transaction(), [(FINGERPRINT, bytes(4))])
    response = client.exchange(wrong, testbed.quiet)
    if response is None:
        testbed.note("the server checks FINGERPRINT")
    else:
        testbed.note("the server ignores FINGERPRINT")
        testbed.expect_success(response, "a Binding request whose FINGERPRINT isn't checked")
    testbed.expect_alive(client)
