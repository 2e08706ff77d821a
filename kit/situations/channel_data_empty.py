"""RFC 8656, section 12.4: a ChannelData message may have no data.

A length of 0 is valid. The datagram that a right server sends for it is empty, and an empty
datagram of the peer results in a ChannelData message of four bytes. A server that drops them is
noted, since UDP may lose any datagram.

Judged by turnaudit: R13 if data is relayed that wasn't sent.
"""

from kit.testbed import Testbed

NUMBER = 0x4000


def drive(testbed: Testbed) -> None:
    client, peer = testbed.client(), testbed.peer()
    client.allocate()
    client.bind(NUMBER, peer)
    client.send_on(NUMBER, b"")
    if peer.socket.receive(testbed.quiet) is None:
        testbed.note("an empty ChannelData message isn't relayed")
    peer.send_to(client, b"")
    if client.next_data(testbed.quiet) is None:
        testbed.note("an empty datagram isn't relayed to the client")
    client.send_on(NUMBER, b"not empty")
    peer.receives(b"not empty", client)
