"""RFC 8489, section 6.3: a message of an unknown method, or a class that its method doesn't have, is discarded.

Methods from 0x00D on aren't assigned to TURN over UDP. Send and Data are indications alone, and
Allocate is a request. A right server discards the others without a response.

Judged by turnaudit: R1 for a success response. By a check: that there is none.
"""

from kit.messages import ALLOCATE, BINDING, DATA, DATA_METHOD, INDICATION, REQUEST, SEND, SUCCESS, encode, peer_address, transport
from kit.testbed import Testbed

UNASSIGNED = 0x07F


def drive(testbed: Testbed) -> None:
    client, peer = testbed.client(), testbed.peer()
    client.allocate()
    client.permit(peer)
    data = [peer_address(peer.endpoint), (DATA, b"to the peer")]
    unassigned = (UNASSIGNED & 0x0F) | (UNASSIGNED & 0x70) << 1
    for name, kind, attributes in (
        ("a request of the method 0x07F", unassigned | REQUEST, []),
        ("an Allocate indication", ALLOCATE | INDICATION, [transport()]),
        ("a Data indication", DATA_METHOD | INDICATION, data),
        ("a Binding success response", BINDING | SUCCESS, []),
        ("an Allocate success response", ALLOCATE | SUCCESS, []),
    ):
        testbed.expect_silence(client, encode(kind, client.transaction(), attributes), name)
    testbed.expect_silence(client, client.build(SEND, data), "a Send request")
    peer.receives_nothing()
    testbed.expect_alive(client)
