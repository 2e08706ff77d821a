"""RFC 8656, section 11.2: a Send indication's data is relayed as it is, whatever its size.

DATA has 1, 2, 3, 4, 100 and 1400 bytes, so that each padding occurs. A right server sends exactly
these bytes in a datagram, without the padding of the attribute.

Judged by turnaudit: R13 for other data. By a check: that each is relayed.
"""

from kit.testbed import Testbed

SIZES = (1, 2, 3, 4, 5, 100, 1400)


def drive(testbed: Testbed) -> None:
    client, peer = testbed.client(), testbed.peer()
    client.allocate()
    client.permit(peer)
    for size in SIZES:
        data = bytes(number % 251 for number in range(size))
        client.send_to(peer, data)
        peer.receives(data, client)
        peer.send_to(client, data)
        client.receives(data, peer)
