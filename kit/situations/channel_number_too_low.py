"""RFC 8656, section 12.2: a channel number below 0x4000 gets 400.

Numbers from 0x0000 to 0x3FFF would look like STUN messages. A right server responds with 400 (Bad
Request) to each of them.

Judged by turnaudit: R10 if a request succeeds. By a check: the code.
"""

from kit.testbed import Testbed


def drive(testbed: Testbed) -> None:
    client, peer = testbed.client(), testbed.peer()
    client.allocate()
    for number in (0x0000, 0x0001, 0x3FFF):
        response = client.bind_channel(number, peer)
        testbed.expect_error(response, 400, f"a ChannelBind of 0x{number:04X}")
    # The range of RFC 8656 can be used as before.
    response = client.bind_channel(0x4000, ("203.0.113.9", 7000))
    testbed.expect_success(response, "a ChannelBind of 0x4000")
