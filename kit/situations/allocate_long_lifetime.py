"""RFC 8656, section 7.2: a LIFETIME above the default results in it, or in the server's maximum.

The server may have a maximum, of which 3600 seconds or less is recommended. So 1800 seconds result
in a lifetime from the default to 1800 seconds.

Judged by turnaudit: R15 for LIFETIME 0. By a check: that the lifetime is in that range. What the
server's maximum is can't be seen.
"""

from kit.messages import lifetime
from kit.testbed import Testbed

REQUESTED = 1800


def drive(testbed: Testbed) -> None:
    default = testbed.client(1).allocate().lifetime
    long = testbed.client(2).allocate(lifetime(REQUESTED)).lifetime
    least, most = min(default, REQUESTED), max(default, REQUESTED)
    testbed.expect_lifetime(long, least, most, f"an Allocate with LIFETIME {REQUESTED}")
