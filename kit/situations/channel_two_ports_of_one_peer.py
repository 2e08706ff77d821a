"""RFC 8656, section 12: a channel is bound to an address and port, not to a host.

Two peers have one IP address, as behind one NAT. Each has a number of its own, and a third port has
none. A right server keeps them apart, and sends what comes from the third port, which is permitted,
as a Data indication.

Judged by turnaudit: R12 for data on the number of the other port.
"""

from kit.testbed import Testbed

NUMBERS = {7000: 0x4000, 7001: 0x4001}


def drive(testbed: Testbed) -> None:
    client = testbed.client()
    peers = {port: testbed.peer(1, port) for port in (7000, 7001, 7002)}
    client.allocate()
    for port, number in NUMBERS.items():
        client.bind(number, peers[port])
    for port, number in NUMBERS.items():
        client.send_on(number, b"to port %d" % port)
        peers[port].receives(b"to port %d" % port, client)
        peers[port].send_to(client, b"from port %d" % port)
        client.receives(b"from port %d" % port, channel=number)
    peers[7002].send_to(client, b"from port 7002")
    client.receives(b"from port 7002", peers[7002])
