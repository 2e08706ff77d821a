"""RFC 8656, section 10.2: a CreatePermission without XOR-PEER-ADDRESS gets 400.

At least one XOR-PEER-ADDRESS has to be there. A right server responds with 400 (Bad Request), and
permits nobody.

Judged by turnaudit: R12 if the request succeeds. By a check: the code.
"""

from kit.messages import CREATE_PERMISSION
from kit.testbed import Testbed


def drive(testbed: Testbed) -> None:
    client, peer = testbed.client(), testbed.peer()
    client.allocate()
    response = client.request(CREATE_PERMISSION, [])
    testbed.expect_error(response, 400, "a CreatePermission without XOR-PEER-ADDRESS")
    client.send_to(peer, b"without a permission")
    peer.receives_nothing()
    client.permit(peer)
    client.send_to(peer, b"with a permission")
    peer.receives(b"with a permission", client)
