"""RFC 8656, section 8.2: a Refresh renews the allocation for the LIFETIME of its success response.

The allocation is refreshed after 60 seconds. A right server relays past the first end, and a second
before the second one. A second after that and the grace it relays nothing.

Judged by turnaudit: R5 for what is relayed afterwards. By a check: that data is relayed before.
"""

from kit.testbed import GRACE, Testbed

SECONDS = 670
REFRESH = 60


def drive(testbed: Testbed) -> None:
    client, peer = testbed.client(), testbed.peer()
    begin = testbed.now()
    first = client.allocate().lifetime
    client.permit(peer)
    testbed.wait_until(begin + REFRESH)
    response = client.refresh()
    refreshed = testbed.now()
    if not testbed.expect_success(response, "a Refresh"):
        return
    if response.lifetime > 640:
        testbed.not_judged(f"the lifetime is {response.lifetime} seconds, and the situation may take twelve minutes")
    end = refreshed + response.lifetime
    for moment in (200, 400):
        testbed.wait_until(begin + moment)
        client.permit(peer)
    for moment in (begin + first + GRACE + 1, end - 1):
        testbed.wait_until(moment)
        client.send_to(peer, b"before the second end")
        peer.receives(b"before the second end", client)
    testbed.wait_until(end + GRACE + 1)
    client.send_to(peer, b"after the second end")
    peer.send_to(client, b"after the second end")
    peer.receives_nothing()
    client.receives_nothing()
