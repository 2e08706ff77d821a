"""RFC 8656, section 11.3: what a peer sends is data, also if it looks like TURN.

A peer sends STUN requests and ChannelData to the relayed transport address, as ICE does. A right
server relays them as data, and responds to none of them itself.

Judged by turnaudit: R1 or S11 for a response to the peer. By a check: that each is relayed.
"""

from kit.messages import ALLOCATE, BINDING, REQUEST, channel_data, encode, transport
from kit.testbed import Testbed


def drive(testbed: Testbed) -> None:
    client, peer = testbed.client(), testbed.peer()
    client.allocate()
    client.permit(peer)
    for data in (
        encode(BINDING | REQUEST, client.transaction()),
        encode(ALLOCATE | REQUEST, client.transaction(), [transport()]),
        channel_data(0x4000, b"of a peer"),
    ):
        peer.send_to(client, data)
        client.receives(data, peer)
    peer.receives_nothing()
