"""RFC 8489, section 6.3.2: a Binding indication gets no response.

An indication never gets a response. Clients send Binding indications to keep a NAT binding alive.
A right server discards them, and goes on.

Judged by turnaudit: R1 or S11 for a response. By a check: that there is none for a third of a second,
and that the server responds to a request afterwards.
"""

from kit.messages import BINDING, INDICATION, SOFTWARE, encode
from kit.testbed import Testbed


def drive(testbed: Testbed) -> None:
    client = testbed.client()
    for attributes in ([], [(SOFTWARE, b"turn kit")]):
        indication = encode(BINDING | INDICATION, client.transaction(), attributes)
        what = f"a Binding indication with {len(attributes)} attributes"
        testbed.expect_silence(client, indication, what)
    testbed.expect_alive(client)
