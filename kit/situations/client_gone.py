"""RFC 8656, section 11.3: data for a client that is gone changes nothing.

The client's socket is closed, so its host reports the port as unreachable by ICMP while the peer
still sends. A right server keeps the allocation: when the client is back on the same port, it
receives what comes then.

Judged by turnaudit: each relayed datagram. By a check: that the data comes again.
"""

from kit.testbed import Testbed


def drive(testbed: Testbed) -> None:
    client, peer = testbed.client(1, 40000), testbed.peer()
    client.allocate()
    client.permit(peer)
    client.socket.close()
    for count in range(5):
        peer.send_to(client, b"to nobody %d" % count)
    testbed.settle()
    back = testbed.client(1, 40000)
    back.nonce, back.relayed = client.nonce, client.relayed
    peer.send_to(back, b"the client is back")
    back.receives(b"the client is back", peer)
    testbed.expect_success(back.refresh(600), "a Refresh of the client that is back")
