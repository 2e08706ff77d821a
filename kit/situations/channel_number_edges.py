"""RFC 8656, section 12.2: the lowest and the highest channel number can be bound.

0x4000 and 0x4FFF are both in the range. A right server binds them to two peers, and relays on each.

Judged by turnaudit: R8, R12 to R14. By a check: that each is bound, and used for its peer.
"""

from kit.testbed import Testbed

LOWEST, HIGHEST = 0x4000, 0x4FFF


def drive(testbed: Testbed) -> None:
    client = testbed.client()
    client.allocate()
    for number, peer in ((LOWEST, testbed.peer(1)), (HIGHEST, testbed.peer(2))):
        response = client.bind_channel(number, peer)
        if testbed.expect_success(response, f"a ChannelBind of 0x{number:04X}"):
            client.send_on(number, b"up")
            peer.receives(b"up", client)
            peer.send_to(client, b"down")
            client.receives(b"down", channel=number)
