"""RFC 8489, section 14.5: attributes after MESSAGE-INTEGRITY are ignored.

Whoever is between client and server can append attributes that no key covers. A right server
ignores all that follow MESSAGE-INTEGRITY, except FINGERPRINT. Here a second XOR-PEER-ADDRESS
follows it: the first peer gets a permission, and the second doesn't.

Judged by turnaudit: R6 if data is relayed to the second peer.
"""

import struct

from kit.messages import CREATE_PERMISSION, encode_attributes, peer_address
from kit.testbed import Testbed


def drive(testbed: Testbed) -> None:
    client, peer, other = testbed.client(), testbed.peer(1), testbed.peer(2)
    client.allocate()
    request = client.build(CREATE_PERMISSION, [peer_address(peer.endpoint)])
    longer = request + encode_attributes([peer_address(other.endpoint)])
    longer = longer[:2] + struct.pack(">H", len(longer) - 20) + longer[4:]
    response = client.exchange(longer)
    testbed.expect_success(response, "a CreatePermission with an attribute after MESSAGE-INTEGRITY")
    client.send_to(other, b"without a permission")
    other.receives_nothing()
    client.send_to(peer, b"with a permission")
    peer.receives(b"with a permission", client)
