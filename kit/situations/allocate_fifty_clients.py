"""RFC 8656, section 6: fifty clients at once each have an allocation of their own.

All requests are under way at once, and so is all data. A right server grants fifty relayed
transport addresses, and relays what each client sends, and what comes to each.

Judged by turnaudit: R22 for one address of two clients, R12 to R14 for data. By a check: that all is
relayed.
"""

from kit.messages import ALLOCATE, REQUEST, XOR_RELAYED_ADDRESS, encode, transport
from kit.testbed import Blocked, Testbed


def drive(testbed: Testbed) -> None:
    clients = [testbed.client(host) for host in range(1, 51)]
    peer = testbed.peer()
    first = [encode(ALLOCATE | REQUEST, client.transaction(), [transport()]) for client in clients]
    for client, request in zip(clients, first):
        client.send(request)
    for client, request in zip(clients, first):
        response = client.response_to(request)
        if response is None or not client.take_nonce(response):
            raise Blocked(f"client {client.endpoint[0]} got no 401 with a NONCE")
    signed = [client.build(ALLOCATE, [transport()]) for client in clients]
    for client, request in zip(clients, signed):
        client.send(request)
    for client, request in zip(clients, signed):
        response = client.response_to(request)
        if response is not None and response.error == 486:
            testbed.not_judged("the server has a quota of fewer than fifty allocations for a user")
        if not testbed.expect_success(response, f"the Allocate of {client.endpoint[0]}"):
            raise Blocked("not all fifty clients have an allocation")
        client.relayed = response.address(XOR_RELAYED_ADDRESS)
    for client in clients:
        client.permit(peer)
    for client in clients:
        client.send_to(peer, client.endpoint[0].encode())
    got = [peer.socket.receive(testbed.patience) for _ in clients]
    testbed.check(None not in got, "the peer receives what all fifty sent", f"{50 - got.count(None)} datagrams came")
    for client in clients:
        peer.send_to(client, b"to " + client.endpoint[0].encode())
    for client in clients:
        client.receives(b"to " + client.endpoint[0].encode(), peer)
