"""RFC 8656, section 12.2: a channel number above 0x4FFF gets 400.

RFC 5766 had numbers up to 0x7FFE. RFC 8656 has 0x4000 to 0x4FFF alone, since the first bytes above
belong to other protocols on the same port (RFC 7983). A right server responds with 400.

Judged by turnaudit: R10 if a request succeeds. By a check: the code.
"""

from kit.testbed import Testbed


def drive(testbed: Testbed) -> None:
    client = testbed.client()
    client.allocate()
    for host, number in enumerate((0x5000, 0x7FFE, 0x7FFF, 0x8000, 0xFFFF), 1):
        response = client.bind_channel(number, (f"203.0.113.{host}", 7000))
        testbed.expect_error(response, 400, f"a ChannelBind of 0x{number:04X}")
    # The range of RFC 8656 can be used as before.
    response = client.bind_channel(0x4000, ("203.0.113.9", 7000))
    testbed.expect_success(response, "a ChannelBind of 0x4000")
