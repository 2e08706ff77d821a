"""RFC 8489, section 9.2.4: an Allocate without MESSAGE-INTEGRITY gets 401 with REALM and NONCE.

A right server makes no allocation for a request without credentials. It challenges the client, and
a Refresh by the client then gets 437 (Allocation Mismatch), since there is nothing to refresh.

Judged by turnaudit: R2 for a success response, R19 if REALM or NONCE is missing. By a check: the
codes, and the realm.
"""

from kit.messages import ALLOCATE, NONCE, REALM, REQUEST, encode, transport
from kit.testbed import Testbed


def drive(testbed: Testbed) -> None:
    client = testbed.client()
    response = client.exchange(encode(ALLOCATE | REQUEST, client.transaction(), [transport()]))
    if testbed.expect_error(response, 401, "an Allocate without credentials"):
        testbed.check(response.get(REALM) == client.user.realm.encode(), "REALM is the server's realm", str(response.get(REALM)))
        testbed.check(bool(response.get(NONCE)), "there is a NONCE")
    testbed.expect_error(client.refresh(600), 437, "a Refresh after that")
