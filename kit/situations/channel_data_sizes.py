"""RFC 8656, section 12.6: ChannelData is relayed as it is; 8,000 bytes whole or not at all.

Up to 1,400 bytes each datagram is relayed, in both directions. A right server relays 8,000 bytes as
well, or discards them if its buffers are smaller. It never relays a part.

Judged by turnaudit: R13 for other data. By a check: that up to 1,400 bytes are relayed.
"""

from kit.testbed import Testbed

NUMBER = 0x4000


def drive(testbed: Testbed) -> None:
    client, peer = testbed.client(), testbed.peer()
    client.allocate()
    client.bind(NUMBER, peer)
    for size in (1, 3, 100, 1400):
        data = bytes(number % 251 for number in range(size))
        client.send_on(NUMBER, data)
        peer.receives(data, client)
        peer.send_to(client, data)
        client.receives(data, channel=NUMBER)
    data = bytes(number % 251 for number in range(8000))
    client.send_on(NUMBER, data)
    if peer.socket.receive(testbed.quiet) is None:
        testbed.note("8,000 bytes aren't relayed to the peer")
    peer.send_to(client, data)
    if client.next_data(testbed.quiet) is None:
        testbed.note("8,000 bytes aren't relayed to the client")
