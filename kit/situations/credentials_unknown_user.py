"""RFC 8489, section 9.2.4: a request of a user that doesn't exist gets 401.

The USERNAME isn't one of the server's. A right server responds with 401 (Unauthenticated), REALM
and NONCE. It responds in the same way to a user with an empty password.

Judged by turnaudit: R2 if the request succeeds. By a check: the code.
"""

from kit.client import User
from kit.messages import ALLOCATE, transport
from kit.testbed import REALM, Testbed


def drive(testbed: Testbed) -> None:
    client = testbed.client()
    client.challenge()
    for user in (User("mallory", "any", REALM), User("mallory", "", REALM)):
        response = client.exchange(client.build(ALLOCATE, [transport()], user))
        testbed.expect_error(response, 401, "an Allocate of a user that doesn't exist")
    # A user that exists is still accepted.
    client.allocate()
