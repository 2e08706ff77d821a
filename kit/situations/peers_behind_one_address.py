"""RFC 8656, section 11.3: peers with one IP address are told apart by their ports.

Three peers have one IP address, as behind one NAT, and one permission. A right server names the
port of each in the XOR-PEER-ADDRESS of its Data indication, and sends to the port that the client
names.

Judged by turnaudit: R12 for another port. By a check: that each is relayed.
"""

from kit.testbed import Testbed

PORTS = (7000, 7001, 50000)


def drive(testbed: Testbed) -> None:
    client = testbed.client()
    peers = [testbed.peer(1, port) for port in PORTS]
    client.allocate()
    client.permit(peers[0])
    for peer in peers:
        peer.send_to(client, b"from port %d" % peer.endpoint[1])
        client.receives(b"from port %d" % peer.endpoint[1], peer)
    for peer in peers:
        client.send_to(peer, b"to port %d" % peer.endpoint[1])
        peer.receives(b"to port %d" % peer.endpoint[1], client)
