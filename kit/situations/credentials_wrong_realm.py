"""RFC 8489, section 9.2.4: a request with another realm isn't accepted.

The user's name and password are right, but REALM, and with it the key, are those of another realm.
A right server doesn't accept the request: the key that it computes is another one, so that
MESSAGE-INTEGRITY is wrong (401). A server may see the realm itself as malformed (400), or the
nonce as not of this realm (438).

Judged by turnaudit: R2 if the request succeeds. By a check: the code.
"""

from kit.client import User
from kit.messages import ALLOCATE, transport
from kit.testbed import USER, Testbed


def drive(testbed: Testbed) -> None:
    client = testbed.client()
    client.challenge()
    stranger = User(USER.name, USER.password, "another.example")
    response = client.exchange(client.build(ALLOCATE, [transport()], stranger))
    testbed.expect_error(response, (401, 400, 438), "an Allocate with another realm")
