"""RFC 8489, section 7: a request with a right FINGERPRINT gets a success response.

FINGERPRINT is the CRC-32 of what precedes it, XOR'ed with 0x5354554e. A server that doesn't use
the mechanism ignores the attribute, since it is comprehension-optional. Both respond.

Judged by turnaudit: R17 for another address. By a check: that there is a response. Whether it has a
FINGERPRINT is noted.
"""

from kit.messages import BINDING, FINGERPRINT, REQUEST, encode
from kit.testbed import Testbed


def drive(testbed: Testbed) -> None:
    client = testbed.client()
    request = encode(BINDING | REQUEST, client.transaction(), has_fingerprint=True)
    response = client.exchange(request)
    if testbed.expect_success(response, "a Binding request with a FINGERPRINT"):
        has_one = response.get(FINGERPRINT) is not None
        testbed.note(f"the response has {'a' if has_one else 'no'} FINGERPRINT")
