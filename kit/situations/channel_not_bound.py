"""RFC 8656, section 12.6: ChannelData on a number that isn't bound is discarded.

The client has an allocation, a permission, and a channel with another number. A right server
discards ChannelData on each other number, without a response, and relays on the bound one.

Judged by turnaudit: R8 for what is relayed.
"""

from kit.testbed import Testbed


def drive(testbed: Testbed) -> None:
    client, peer = testbed.client(), testbed.peer()
    client.allocate()
    client.permit(peer)
    client.send_on(0x4000, b"before any channel is bound")
    peer.receives_nothing()
    client.bind(0x4001, peer)
    for number in (0x4000, 0x4002, 0x4FFF):
        client.send_on(number, b"on the number %d" % number)
    peer.receives_nothing()
    client.send_on(0x4001, b"on the channel")
    peer.receives(b"on the channel", client)
