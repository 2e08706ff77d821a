"""RFC 8656, section 5: a request for an allocation that doesn't exist gets 437.

The client has a nonce, and no allocation. A right server responds with 437 (Allocation Mismatch)
to a Refresh, a CreatePermission and a ChannelBind. Only to a Refresh with LIFETIME 0 turnaudit
accepts a success response, too: there is nothing to delete.

Judged by turnaudit: R4 if a request succeeds. By a check: the code.
"""

from kit.testbed import Testbed


def drive(testbed: Testbed) -> None:
    client, peer = testbed.client(), testbed.peer()
    client.challenge()
    testbed.expect_error(client.refresh(600), 437, "a Refresh without an allocation")
    testbed.expect_error(client.create_permission(peer), 437, "a CreatePermission without an allocation")
    testbed.expect_error(client.bind_channel(0x4000, peer), 437, "a ChannelBind without an allocation")
    client.send_to(peer, b"without an allocation")
    client.send_on(0x4000, b"without an allocation")
    peer.receives_nothing()
