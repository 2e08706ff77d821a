"""RFC 8656, section 12.5: over UDP a ChannelData message may be padded or not.

Padding to four bytes isn't required over UDP, but allowed. A right server relays the bytes that the
length counts, and never the padding.

Judged by turnaudit: R13 for other data. By a check: that each is relayed.
"""

from kit.testbed import Testbed

NUMBER = 0x4000


def drive(testbed: Testbed) -> None:
    client, peer = testbed.client(), testbed.peer()
    client.allocate()
    client.bind(NUMBER, peer)
    for size in (1, 2, 3, 4, 5):
        data = bytes(range(1, size + 1))
        client.send_on(NUMBER, data)
        peer.receives(data, client)
        client.send_on(NUMBER, data, padding=-size % 4)
        peer.receives(data, client)
