"""RFC 8656, section 7.2: an Allocate with credentials makes an allocation.

A right server challenges the first request, and then responds with XOR-RELAYED-ADDRESS in its
relay range, LIFETIME and XOR-MAPPED-ADDRESS, signed with the user's key. What the client sends by
the allocation comes from the relayed transport address.

Judged by turnaudit: R14 to R18, R20 and R21 for the response. By a check: that it succeeds, and that
the data is relayed.
"""

from kit.messages import XOR_MAPPED_ADDRESS
from kit.testbed import Testbed


def drive(testbed: Testbed) -> None:
    client, peer = testbed.client(), testbed.peer()
    response = client.allocate()
    testbed.check(bool(response.lifetime), "LIFETIME isn't 0", response.lifetime)
    mapped = response.address(XOR_MAPPED_ADDRESS)
    testbed.check(mapped == client.endpoint, "XOR-MAPPED-ADDRESS is the client's address", mapped)
    client.permit(peer)
    client.send_to(peer, b"by the new allocation")
    peer.receives(b"by the new allocation", client)
