"""RFC 8656, section 11.3: without a channel a peer's data comes as a Data indication.

The peer has a permission, and no channel. Another peer has a channel. A right server sends the
first one's data in a Data indication, and the other's as ChannelData on its number.

Judged by turnaudit: R8, R12 for ChannelData on a number that isn't the peer's.
"""

from kit.testbed import Testbed


def drive(testbed: Testbed) -> None:
    client, permitted, bound = testbed.client(), testbed.peer(1), testbed.peer(2)
    client.allocate()
    client.permit(permitted)
    client.bind(0x4000, bound)
    permitted.send_to(client, b"of the permitted peer")
    got = client.next_data()
    came = "nothing came" if got is None else f"it came on channel {got.channel}" if got.channel else "other data came"
    is_indication = got is not None and got.channel is None and got.data == b"of the permitted peer"
    testbed.check(is_indication, "the permitted peer's data comes in a Data indication", came)
    bound.send_to(client, b"of the bound peer")
    client.receives(b"of the bound peer", channel=0x4000)
