"""RFC 8656, section 7.2: a LIFETIME below the default results in the default lifetime.

The server takes the smaller of the requested lifetime and its maximum. If that is greater than its
default, it uses it, otherwise the default. So 10 seconds, and 1, result in what a request without LIFETIME
results in.

Judged by turnaudit: R15 for LIFETIME 0. By a check: that both lifetimes are the same. The default
itself is the server's choice, of which 600 seconds are recommended; it is noted.
"""

from kit.messages import lifetime
from kit.testbed import Testbed


def drive(testbed: Testbed) -> None:
    default = testbed.client(1).allocate().lifetime
    testbed.note(f"the default lifetime is {default} seconds")
    for host, seconds in ((2, 10), (3, 1)):
        short = testbed.client(host).allocate(lifetime(seconds)).lifetime
        testbed.expect_lifetime(short, default, default, f"an Allocate with LIFETIME {seconds}")
