"""RFC 8656, section 9: a Refresh of the allocation doesn't renew its permissions.

The client refreshes its allocation at 100 and 250 seconds, and requests no permission. A right
server relays nothing a second after 300 seconds and the grace.

Judged by turnaudit: R7 for what is relayed afterwards.
"""

from kit.testbed import GRACE, Testbed

SECONDS = 305
PERMISSION = 300


def drive(testbed: Testbed) -> None:
    client, peer = testbed.client(), testbed.peer()
    client.allocate()
    begin = testbed.now()
    client.permit(peer)
    for moment in (100, 250):
        testbed.wait_until(begin + moment)
        testbed.expect_success(client.refresh(600), f"a Refresh at {moment} seconds")
    testbed.wait_until(begin + PERMISSION + GRACE + 1)
    client.send_to(peer, b"a second after")
    peer.send_to(client, b"a second after")
    peer.receives_nothing()
    client.receives_nothing()
