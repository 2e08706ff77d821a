"""RFC 8489, section 6.2.1: every request of a call comes twice.

Each response is lost on its way, so the client sends each request once more, with the same
transaction id: Allocate, CreatePermission, ChannelBind and Refresh. A right server responds to each
copy with success, and the call works.

Judged by turnaudit: each response. By a check: that each copy gets one.
"""

from kit.messages import ALLOCATE, CHANNEL_BIND, CREATE_PERMISSION, REFRESH, XOR_RELAYED_ADDRESS
from kit.messages import channel_number, lifetime, peer_address, transport
from kit.testbed import Testbed

NUMBER = 0x4000


def drive(testbed: Testbed) -> None:
    client, peer = testbed.client(), testbed.peer()
    client.challenge()
    to_peer = peer_address(peer.endpoint)
    for name, method, attributes in (
        ("Allocate", ALLOCATE, [transport()]),
        ("CreatePermission", CREATE_PERMISSION, [to_peer]),
        ("ChannelBind", CHANNEL_BIND, [channel_number(NUMBER), to_peer]),
        ("Refresh", REFRESH, [lifetime(600)]),
    ):
        request = client.build(method, attributes)
        client.send(request)
        client.send(request)
        for copy in ("the first copy", "the second copy"):
            response = client.response_to(request)
            if testbed.expect_success(response, f"{copy} of the {name}") and method == ALLOCATE:
                client.relayed = response.address(XOR_RELAYED_ADDRESS)
    client.send_on(NUMBER, b"on the channel")
    peer.receives(b"on the channel", client)
