"""RFC 8656, section 8.2: a Refresh with a LIFETIME above the default gets it, or the maximum.

The lifetime is computed as for an Allocate: the smaller of what is requested and the server's
maximum, but at least the default.

Judged by turnaudit: R15 for LIFETIME 0. By a check: that the lifetime is in that range.
"""

from kit.testbed import Testbed

REQUESTED = 1800


def drive(testbed: Testbed) -> None:
    client = testbed.client()
    default = client.allocate().lifetime
    response = client.refresh(REQUESTED)
    if testbed.expect_success(response, f"a Refresh with LIFETIME {REQUESTED}"):
        least, most = min(default, REQUESTED), max(default, REQUESTED)
        testbed.expect_lifetime(response.lifetime, least, most, "the response")
