"""RFC 8656, section 8.2: a Refresh with a LIFETIME below the default gets the default.

The lifetime is computed as for an Allocate: what is requested counts only if it is greater than the
default. So a client can't make its allocation end in 10 seconds, except by LIFETIME 0.

Judged by turnaudit: R15 for LIFETIME 0. By a check: that the lifetime is the default.
"""

from kit.testbed import Testbed

REQUESTED = (10, 1)


def drive(testbed: Testbed) -> None:
    client = testbed.client()
    default = client.allocate().lifetime
    for seconds in REQUESTED:
        response = client.refresh(seconds)
        if testbed.expect_success(response, f"a Refresh with LIFETIME {seconds}"):
            testbed.expect_lifetime(response.lifetime, default, default, "the response")
