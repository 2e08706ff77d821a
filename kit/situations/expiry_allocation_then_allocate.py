"""RFC 8656, section 7.2: after its allocation has ended a client can make another.

The client does nothing until its allocation has ended, by a second and the grace. Then it requests
one again, from the same address and port. A right server grants it. Permissions of the first one
are not the second one's.

Judged by turnaudit: R20 can't be violated after the end; R6 for what is relayed. By a check: success.
"""

from kit.testbed import GRACE, Testbed

SECONDS = 610


def drive(testbed: Testbed) -> None:
    client, peer = testbed.client(), testbed.peer()
    begin = testbed.now()
    lasts = client.allocate().lifetime
    if lasts > 700:
        testbed.not_judged(f"the default lifetime is {lasts} seconds, and the situation may take twelve minutes")
    testbed.wait_until(begin + lasts - 20)
    client.permit(peer)
    testbed.wait_until(begin + lasts + GRACE + 1)
    client.allocate()
    peer.send_to(client, b"by the old permission")
    client.receives_nothing()
    client.permit(peer)
    client.send_to(peer, b"by the new permission")
    peer.receives(b"by the new permission", client)
