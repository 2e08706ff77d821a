"""RFC 8656, section 11.2: a Send indication without XOR-PEER-ADDRESS or DATA is discarded.

Both have to be there. A right server discards the indication, without a response and without a
datagram to anybody.

Judged by turnaudit: R1, R12 or R13 for what is relayed. By a check: that there is no response.
"""

from kit.messages import DATA, INDICATION, SEND, encode, peer_address
from kit.testbed import Testbed


def drive(testbed: Testbed) -> None:
    client, peer = testbed.client(), testbed.peer()
    client.allocate()
    client.permit(peer)
    without_peer = encode(SEND | INDICATION, client.transaction(), [(DATA, b"to nobody")])
    testbed.expect_silence(client, without_peer, "a Send indication without XOR-PEER-ADDRESS")
    without_data = encode(SEND | INDICATION, client.transaction(), [peer_address(peer.endpoint)])
    testbed.expect_silence(client, without_data, "a Send indication without DATA")
    peer.receives_nothing()
    client.send_to(peer, b"with both")
    peer.receives(b"with both", client)
