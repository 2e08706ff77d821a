#!/usr/bin/env python3
"""More captures of a server that breaks its rules where `turnprep cut` excludes datagrams, for tests/prepared.py: where the captures begin,
late responses, what names a judged client's address, deletions of clients from before, and DTLS.

The two clients and the options are those of tests/leaks.py, which builds the captures.
"""

from leaks import FREE, FROM_START, LEAKED, RELEASED, START, STRICT, THEN, THIRD, TLS_CLIENT
from make_capture import BINDING_TYPES, DATA, NONCE, PEER, REALM, SERVER, SUCCESS, USERNAME, address, message

INNER = ("192.0.2.1", 50001)


def record(kind, size):
    """A DTLS record of this type."""
    return bytes([kind, 254, 253]) + bytes(size)


def request_permission(scene, moment):
    """A client from before requests a permission. It returns the response."""
    client = scene.before
    id = client.transaction()
    named = [(USERNAME, client.name.encode()), (REALM, b"example.org"), (NONCE, b"nonce")]
    kind = BINDING_TYPES["permission"]
    scene.sides[0].put(moment, client.endpoint, SERVER, message(kind, id, [(PEER, address(client.peer)), *named], client.key))
    return message(kind | SUCCESS, id, [], client.key)


def responds_in_time(scene):
    response = request_permission(scene, THEN)
    scene.sides[0].put(THEN + 1_500_000, SERVER, scene.before.endpoint, response)


def responds_late(scene):
    """A response leaves for a client from before after the hold."""
    response = request_permission(scene, THEN)
    scene.sides[0].put(THEN + 2_500_000, SERVER, scene.before.endpoint, response)


def responds_twice(scene):
    response = request_permission(scene, THEN)
    for moment in (THEN + 20, THEN + 40):
        scene.sides[0].put(moment, SERVER, scene.before.endpoint, response)


def responds_to_nobody(scene):
    """A success response leaves for a client from before that requested nothing of the kind."""
    scene.sides[0].put(THEN, SERVER, scene.before.endpoint, message(BINDING_TYPES["permission"] | SUCCESS, bytes(12), [], scene.before.key))


def names_judged_address(scene):
    """What a client from before sends to an address of the service is delivered to it as of the judged client's relayed address."""
    sent = message(BINDING_TYPES["send"], scene.before.transaction(), [(PEER, address(INNER)), (DATA, LEAKED)])
    scene.sides[0].put(THEN, scene.before.endpoint, SERVER, sent)
    scene.deliver(THEN + 20, scene.before.endpoint, peer=scene.judged.relayed)


def data_at_begin(scene):
    """The peer of a client from before sent this before the captures begin."""
    scene.deliver(START + 5, scene.before.endpoint, b"early", scene.before.peer)


def data_after_begin(scene):
    scene.deliver(START + 2_500_000, scene.before.endpoint, b"late", scene.before.peer)


def leaves_at_begin(scene):
    """Data leaves an address whose grant isn't captured as the captures begin."""
    scene.leave(START + 10, FREE, THIRD, b"early")


def judged_data_at_begin(scene):
    """The judged client's data leaves another address, too, within the hold after the captures begin."""
    scene.leave(START + 1_100_020, FREE, THIRD, b"first up")


def ends_from_before(scene):
    """A client from before ends its allocation, and the server relays both ways once."""
    scene.before.to_peer(THEN - 500_000, b"up again")
    scene.before.refresh(THEN, 0)
    scene.before.from_peer(THEN + 300_000, LEAKED, False)
    scene.before.to_peer(THEN + 301_000, b"the last up")


def ends_from_before_unsent_down(scene):
    scene.before.refresh(THEN, 0)
    scene.deliver(THEN + 300_000, scene.before.endpoint, peer=scene.before.peer)


def ends_from_before_unsent_up(scene):
    scene.before.refresh(THEN, 0)
    scene.leave(THEN + 300_000, scene.before.relayed, scene.before.peer)


def ends_from_before_twice(scene):
    scene.before.refresh(THEN, 0)
    scene.before.from_peer(THEN + 300_000, LEAKED, False)
    scene.deliver(THEN + 300_030, scene.before.endpoint, peer=scene.before.peer)


def ends_from_before_other_port(scene):
    """What one port of the peer sends is delivered as of another one."""
    scene.before.refresh(THEN, 0)
    scene.sides[1].put(THEN + 300_000, scene.before.peer, scene.before.relayed, LEAKED)
    scene.deliver(THEN + 300_010, scene.before.endpoint, peer=(scene.before.peer[0], 7001))


def ends_from_before_of_judged(scene):
    """Data for the judged client is delivered to a client from before after its deletion."""
    scene.before.refresh(THEN, 0)
    scene.arrive(THEN + 300_000)
    scene.deliver(THEN + 300_010, scene.before.endpoint)


def relays_down_by_dtls(scene):
    """A client by DTLS gets responses to its records, and what its peer sends."""
    scene.sides[0].put(THEN, TLS_CLIENT, SERVER, record(22, 60))
    for number in range(3):
        scene.sides[0].put(THEN + 10 + number, SERVER, TLS_CLIENT, record(22, 200))
    scene.sides[0].put(THEN + 1_000, TLS_CLIENT, SERVER, record(23, 100))
    scene.sides[0].put(THEN + 1_010, SERVER, TLS_CLIENT, record(23, 100))
    for number in range(4):
        scene.sides[1].put(THEN + 2_000 + 20 * number, THIRD, FREE, bytes([number]) * 50)
        scene.sides[0].put(THEN + 2_010 + 20 * number, SERVER, TLS_CLIENT, record(23, 10 + 8 + 4 + 50 + 8))


def unsent_by_dtls(scene):
    """Application data leaves for a client by DTLS long after anything arrived."""
    scene.sides[0].put(THEN - 3_000_000, TLS_CLIENT, SERVER, record(22, 60))
    scene.sides[0].put(THEN, SERVER, TLS_CLIENT, record(23, 100))


def more_by_dtls_than_arrived(scene):
    scene.sides[0].put(THEN, TLS_CLIENT, SERVER, record(23, 100))
    for number in range(2):
        scene.sides[0].put(THEN + 10 + number, SERVER, TLS_CLIENT, record(23, 100))


def dtls_to_judged_client(scene):
    """A client by UDP sends one DTLS record, and gets one."""
    scene.sides[0].put(THEN, scene.judged.endpoint, SERVER, record(22, 40))
    scene.sides[0].put(THEN + 10, SERVER, scene.judged.endpoint, record(23, 40))


BREACHES = (
    (responds_in_time, False, ((),)),
    (responds_late, True, ((),)),
    (responds_twice, True, ((),)),
    (responds_to_nobody, True, ((),)),
    (names_judged_address, True, ((),)),
    (data_at_begin, False, ((), ("--no-tcp",))),
    (data_after_begin, True, ((), ("--no-tcp",))),
    (leaves_at_begin, False, ((), ("--no-tcp",))),
    (leaves_at_begin, True, (FROM_START, STRICT)),
    (judged_data_at_begin, True, ((), ("--no-tcp",), STRICT)),
    (ends_from_before, False, (RELEASED,)),
    (ends_from_before, True, ((),)),
    (ends_from_before_unsent_down, True, (RELEASED,)),
    (ends_from_before_unsent_up, True, (RELEASED,)),
    (ends_from_before_twice, True, (RELEASED,)),
    (ends_from_before_other_port, True, (RELEASED,)),
    (ends_from_before_of_judged, True, (RELEASED,)),
    (relays_down_by_dtls, False, ((), FROM_START)),
    (unsent_by_dtls, True, ((), FROM_START, STRICT)),
    (more_by_dtls_than_arrived, True, ((), FROM_START)),
    (dtls_to_judged_client, True, ((), FROM_START, STRICT)),
)
CASES = [(breach, options, is_reported) for breach, is_reported, all_options in BREACHES for options in all_options]
