"""RFC 8656, section 18: attributes whose value has another length than specified.

LIFETIME has four bytes, REQUESTED-TRANSPORT four, XOR-PEER-ADDRESS eight for IPv4. A right server
responds with 400 (Bad Request) to a REQUESTED-TRANSPORT of one byte and to an XOR-PEER-ADDRESS of
four. To a LIFETIME of two bytes it responds with 400, or as if it were absent.

Judged by turnaudit: R12, R16 for what succeeds. By a check: the code.
"""

from kit.messages import ALLOCATE, CREATE_PERMISSION, LIFETIME, REFRESH, REQUESTED_TRANSPORT, XOR_PEER_ADDRESS, describe
from kit.testbed import Testbed


def drive(testbed: Testbed) -> None:
    client = testbed.client()
    client.challenge()
    response = client.request(ALLOCATE, [(REQUESTED_TRANSPORT, b"\x11")])
    testbed.expect_error(response, 400, "an Allocate with a REQUESTED-TRANSPORT of one byte")
    if response is None or not response.is_success:
        client.allocate()
    response = client.request(CREATE_PERMISSION, [(XOR_PEER_ADDRESS, bytes(4))])
    testbed.expect_error(response, 400, "a CreatePermission with an XOR-PEER-ADDRESS of four bytes")
    response = client.request(REFRESH, [(LIFETIME, bytes(2))])
    is_right = response is not None and (response.error == 400 or response.is_success and response.lifetime != 0)
    testbed.check(is_right, "a Refresh with a LIFETIME of two bytes gets 400, or the default lifetime", describe(response))
