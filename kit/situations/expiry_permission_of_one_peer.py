"""RFC 8656, section 9: each permission has its own end.

Two peers are permitted at once, and after 150 seconds one of them is permitted again. A second
after 300 seconds and the grace a right server relays the data of that one alone.

Judged by turnaudit: R7 for data of the other one. By a check: that the renewed one's is relayed.
"""

from kit.testbed import GRACE, Testbed

SECONDS = 305
RENEWAL, PERMISSION = 150, 300


def drive(testbed: Testbed) -> None:
    client, expired, renewed = testbed.client(), testbed.peer(1), testbed.peer(2)
    client.allocate()
    begin = testbed.now()
    client.permit(expired, renewed)
    testbed.wait_until(begin + RENEWAL)
    client.permit(renewed)
    testbed.wait_until(begin + PERMISSION + GRACE + 1)
    client.send_to(expired, b"a second after")
    expired.send_to(client, b"a second after")
    expired.receives_nothing()
    client.receives_nothing()
    client.send_to(renewed, b"still permitted")
    renewed.receives(b"still permitted", client)
    renewed.send_to(client, b"still permitted")
    client.receives(b"still permitted", renewed)
