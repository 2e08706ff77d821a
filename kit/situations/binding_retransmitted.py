"""RFC 8489, section 6.2.1: a Binding request that is sent again gets the same response again.

A client over UDP sends a request again if the response is late. A right server responds to each
copy: it may remember the first response, or make it anew.

Judged by turnaudit: R17 for another address, S10 for two responses to one copy. By a check: that each
copy gets its response.
"""

from kit.messages import BINDING, REQUEST, XOR_MAPPED_ADDRESS, encode
from kit.testbed import Testbed


def drive(testbed: Testbed) -> None:
    client = testbed.client()
    request = encode(BINDING | REQUEST, client.transaction())
    for copy in ("the first copy", "the second copy", "the third copy"):
        response = client.exchange(request)
        if testbed.expect_success(response, f"{copy} of the Binding request"):
            mapped = response.address(XOR_MAPPED_ADDRESS)
            testbed.check(mapped == client.endpoint, "XOR-MAPPED-ADDRESS is the client's address", mapped)
