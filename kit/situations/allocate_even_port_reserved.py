"""RFC 8656, section 7.2: EVEN-PORT with the R bit reserves the next port, which RESERVATION-TOKEN then gets.

A right server grants an even port, reserves the next one, and returns a RESERVATION-TOKEN of 8
bytes, or refuses with 508. An Allocate of another client with that token gets the reserved port.

Judged by turnaudit: R14 for an odd port. By a check: that the token gets the reserved port.
"""

from kit.messages import ALLOCATE, RESERVATION_TOKEN, XOR_RELAYED_ADDRESS, even_port, transport
from kit.testbed import Testbed


def drive(testbed: Testbed) -> None:
    first, second = testbed.client(1), testbed.client(2)
    response = first.request(ALLOCATE, [transport(), even_port(reserve=True)])
    if response is None or not response.is_success:
        testbed.expect_error(response, 508, "an Allocate with EVEN-PORT and the R bit that isn't granted")
        return
    relayed, token = response.address(XOR_RELAYED_ADDRESS), response.get(RESERVATION_TOKEN)
    testbed.check(relayed is not None and relayed[1] % 2 == 0, "the relayed port is even", relayed)
    if not testbed.check(token is not None and len(token) == 8, "there is a RESERVATION-TOKEN of 8 bytes", token):
        return
    response = second.request(ALLOCATE, [transport(), (RESERVATION_TOKEN, token)])
    if testbed.expect_success(response, "an Allocate with that RESERVATION-TOKEN"):
        reserved = (relayed[0], relayed[1] + 1)
        got = response.address(XOR_RELAYED_ADDRESS)
        testbed.check(got == reserved, f"it gets the reserved port {reserved[1]}", got)
