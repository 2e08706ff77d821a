"""RFC 8656, section 12: a channel number is one client's own.

Two clients bind the same number, each to another peer. A right server relays what each sends to its
own peer.

Judged by turnaudit: R12 for data to the other's peer. By a check: that each is relayed.
"""

from kit.testbed import Testbed

NUMBER = 0x4000


def drive(testbed: Testbed) -> None:
    pairs = [(testbed.client(host), testbed.peer(host)) for host in (1, 2)]
    for client, peer in pairs:
        client.allocate()
        client.bind(NUMBER, peer)
    for client, peer in pairs:
        data = b"of " + client.endpoint[0].encode()
        client.send_on(NUMBER, data)
        peer.receives(data, client)
        peer.send_to(client, data)
        client.receives(data, channel=NUMBER)
