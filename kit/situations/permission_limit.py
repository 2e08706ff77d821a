"""RFC 8656, section 10.2: a CreatePermission for more peers than the server can have gets 508.

The number of peers in one request grows until the server refuses, up to 100. A right server
responds with success, and the last peer is permitted; or with 508 (Insufficient Capacity), or 400
for a message that is too long for it, and then none of these peers is permitted.

Judged by turnaudit: R6 for data of a peer that was refused. By a check: the code.
"""

from kit.testbed import Testbed


def drive(testbed: Testbed) -> None:
    client = testbed.client()
    client.allocate()
    first = 10
    for count in (5, 20, 50, 100):
        peers = [(f"203.0.113.{first + number}", 7000) for number in range(count)]
        last = testbed.peer(first + count - 1)
        response = client.create_permission(*peers)
        client.send_to(last, b"to the last of %d" % count)
        if response is None or not response.is_success:
            testbed.expect_error(response, (508, 400), f"a CreatePermission for {count} peers that is refused")
            testbed.note(f"the server refuses {count} peers in one request")
            last.receives_nothing()
            return
        last.receives(b"to the last of %d" % count, client)
        first += count
    testbed.note("no limit was seen: 100 peers in one request are permitted")
