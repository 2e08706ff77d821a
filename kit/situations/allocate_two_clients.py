"""RFC 8656, section 6: two clients have relayed transport addresses of their own.

Each is known by its 5-tuple: two hosts, and two ports of one host. A right server grants each
another relayed transport address, and delivers to each what comes to its own.

Judged by turnaudit: R22 for one address of two clients. By a check: that all data is delivered.
"""

from kit.testbed import Testbed


def drive(testbed: Testbed) -> None:
    clients = [testbed.client(1), testbed.client(2), testbed.client(1, 40001)]
    peer = testbed.peer()
    for client in clients:
        client.allocate()
        client.permit(peer)
    addresses = {client.relayed for client in clients}
    came = f"they are {len(addresses)}"
    testbed.check(len(addresses) == 3, "the three relayed transport addresses differ", came)
    for number, client in enumerate(clients):
        peer.send_to(client, b"to client %d" % number)
        client.receives(b"to client %d" % number, peer)
