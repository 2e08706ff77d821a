"""RFC 8656, section 5: a server that is ended in the middle of a call.

Two clients have allocations, and data flows in both directions while the server gets SIGTERM. A
right server ends, and what it relayed until then is right. Afterwards nothing comes from its
addresses.

Judged by turnaudit: all until the end. By a check: that it ends within ten seconds by SIGTERM.
"""

from kit.testbed import Testbed


def drive(testbed: Testbed) -> None:
    pairs = [(testbed.client(host), testbed.peer(host)) for host in (1, 2)]
    for client, peer in pairs:
        client.allocate()
        client.permit(peer)
    for count in range(20):
        for client, peer in pairs:
            client.send_to(peer, b"up %d" % count)
            peer.send_to(client, b"down %d" % count)
    testbed.check(testbed.end_server(), "the server ends within ten seconds by SIGTERM", "it had to be killed")
    while any(client.next_data(0) or peer.socket.receive(0) for client, peer in pairs):
        pass
    for client, peer in pairs:
        client.send_to(peer, b"after the end")
        peer.send_to(client, b"after the end")
        peer.receives_nothing()
        client.receives_nothing()
