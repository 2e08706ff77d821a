"""RFC 8489, section 6.2.1: a call over a link that loses and reorders datagrams.

`tc netem` loses a fifth of what client and peer send, and delays each datagram by another time. The
client sends each request again until it has a response, up to twelve times. A right server gets
through: what it relays and responds is right in whatever order it came.

Judged by turnaudit: each response and each relayed datagram. By a check: that the call is made.
"""

from kit.client import Blocked
from kit.messages import ALLOCATE, CHANNEL_BIND, REFRESH, REQUEST, XOR_RELAYED_ADDRESS
from kit.messages import channel_number, encode, lifetime, peer_address, transport
from kit.testbed import Testbed

LOSS = "loss 20% delay 20ms 15ms"
NUMBER = 0x4000


def persist(client, request: bytes):
    """Sends a request until it has a response."""
    for _ in range(12):
        response = client.exchange(request, 0.5)
        if response is not None:
            return response
    raise Blocked("a request that is sent twelve times has to get a response")


def drive(testbed: Testbed) -> None:
    client, peer = testbed.client(), testbed.peer()
    challenge = encode(ALLOCATE | REQUEST, client.transaction(), [transport()])
    client.take_nonce(persist(client, challenge))
    response = persist(client, client.build(ALLOCATE, [transport()]))
    if not testbed.expect_success(response, "an Allocate over a link that loses datagrams"):
        return
    client.relayed = response.address(XOR_RELAYED_ADDRESS)
    bind = client.build(CHANNEL_BIND, [channel_number(NUMBER), peer_address(peer.endpoint)])
    testbed.expect_success(persist(client, bind), "a ChannelBind")
    for count in range(50):
        client.send_on(NUMBER, b"up %d" % count)
        peer.send_to(client, b"down %d" % count)
    refresh = client.build(REFRESH, [lifetime(600)])
    testbed.expect_success(persist(client, refresh), "a Refresh")
    testbed.settle()
