"""RFC 8656, section 6: an allocation ends after the LIFETIME of its success response.

The permission is renewed, so that only the allocation ends. A second before the end a right server
relays. A second after the end and the grace it relays nothing in either direction, and a Refresh
gets 437 (Allocation Mismatch).

Judged by turnaudit: R5 for what is relayed or refreshed afterwards. By a check: the code.
"""

from kit.testbed import GRACE, Testbed

SECONDS = 610


def drive(testbed: Testbed) -> None:
    client, peer = testbed.client(), testbed.peer()
    begin = testbed.now()
    lasts = client.allocate().lifetime
    if lasts > 700:
        testbed.not_judged(f"the default lifetime is {lasts} seconds, and the situation may take twelve minutes")
    for moment in range(0, lasts - 10, 200):
        testbed.wait_until(begin + moment)
        client.permit(peer)
    testbed.wait_until(begin + lasts - 1)
    client.send_to(peer, b"a second before")
    peer.receives(b"a second before", client)
    peer.send_to(client, b"a second before")
    client.receives(b"a second before", peer)
    testbed.wait_until(begin + lasts + GRACE + 1)
    client.send_to(peer, b"a second after")
    peer.send_to(client, b"a second after")
    peer.receives_nothing()
    client.receives_nothing()
    testbed.expect_error(client.refresh(600), 437, "a Refresh after the end")
