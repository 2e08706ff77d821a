"""RFC 8489, section 6.3.1.1: a Binding request gets a success response with the client's address.

A right server responds to a Binding request without credentials. XOR-MAPPED-ADDRESS is the address
and port from which the request came. Each of two clients gets its own.

Judged by turnaudit: R17 for another address, R21 if there is none. By a check: that each request
gets its response.
"""

from kit.messages import XOR_MAPPED_ADDRESS
from kit.testbed import Testbed


def drive(testbed: Testbed) -> None:
    for host, port in ((1, 40000), (2, 40000), (1, 40001)):
        client = testbed.client(host, port)
        response = client.binding()
        if testbed.expect_success(response, f"the Binding request of client {host} at port {port}"):
            mapped = response.address(XOR_MAPPED_ADDRESS)
            testbed.check(mapped == client.endpoint, "XOR-MAPPED-ADDRESS is the client's address", mapped)
