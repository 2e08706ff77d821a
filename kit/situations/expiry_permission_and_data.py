"""RFC 8656, section 9: data doesn't renew a permission, in either direction.

Client and peer send all the time, and the client requests no permission. A right server relays
nothing a second after 300 seconds and the grace, although there was data at each moment before.

Judged by turnaudit: R7 for what is relayed afterwards. By a check: that data is relayed before.
"""

from kit.testbed import GRACE, Testbed

SECONDS = 305
PERMISSION = 300


def drive(testbed: Testbed) -> None:
    client, peer = testbed.client(), testbed.peer()
    client.allocate()
    begin = testbed.now()
    client.permit(peer)
    for moment in range(0, PERMISSION, 20):
        testbed.wait_until(begin + moment)
        client.send_to(peer, b"up at %d" % moment)
        peer.receives(b"up at %d" % moment, client)
        peer.send_to(client, b"down at %d" % moment)
        client.receives(b"down at %d" % moment, peer)
    testbed.wait_until(begin + PERMISSION + GRACE + 1)
    client.send_to(peer, b"a second after")
    peer.send_to(client, b"a second after")
    peer.receives_nothing()
    client.receives_nothing()
