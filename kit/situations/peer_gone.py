"""RFC 8656, section 11.2: an unreachable peer changes nothing for the others.

One peer's socket is closed, so its host reports the port as unreachable by ICMP. A right server
keeps the allocation, and relays to the other peers. RFC 8656 lets it report the ICMP message to the
client (section 11.5). turnaudit doesn't judge such a Data indication, so that this situation isn't
judged then.

Judged by turnaudit: each relayed datagram. By a check: that the other peer receives data.
"""

from kit.messages import ICMP, read_message
from kit.testbed import Testbed


def drive(testbed: Testbed) -> None:
    client, gone, peer = testbed.client(), testbed.peer(1), testbed.peer(2)
    client.allocate()
    client.permit(gone, peer)
    gone.socket.close()
    for count in range(5):
        client.send_to(gone, b"to nobody %d" % count)
    testbed.settle()
    while (payload := client.receive(0)) is not None:
        message = read_message(payload)
        if message is not None and message.get(ICMP) is not None:
            testbed.not_judged("the server sends the attribute ICMP, which turnaudit doesn't judge")
    client.send_to(peer, b"to the other peer")
    peer.receives(b"to the other peer", client)
    back = testbed.peer(1)
    client.send_to(back, b"the peer is back")
    back.receives(b"the peer is back", client)
