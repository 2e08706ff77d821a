"""What the server of tests/kit/turn_server.py can break, and what kit/run has to report of it: in which situation, by which rule.

`check` is no rule: only a check of the situation sees it.
"""

from __future__ import annotations

from dataclasses import dataclass


@dataclass(frozen=True)
class Fault:
    """One way in which the server breaks the RFCs, with a situation that shows it."""

    name: str
    situation: str
    expected: str


FAULTS = [
    Fault("responds_by_another_method", "refresh", "R1"),
    Fault("any_password", "credentials_wrong_password", "R2"),
    Fault("any_user", "other_user_refresh", "R3"),
    Fault("any_user", "other_user_delete", "R3"),
    Fault("any_user", "other_user_permission", "R3"),
    Fault("any_user", "other_user_channel", "R3"),
    Fault("deletes_nothing", "delete", "R4"),
    Fault("deletes_nothing", "delete_while_data_flows", "R4"),
    Fault("allocation_never_ends", "expiry_allocation", "R5"),
    Fault("permits_everybody", "permission_missing", "R6"),
    Fault("permits_everybody", "permission_none", "R6"),
    Fault("keeps_permissions", "delete_then_permission", "R6"),
    Fault("reads_past_the_integrity", "integrity_covers_all", "R6"),
    Fault("permission_never_ends", "expiry_permission", "R7"),
    Fault("permission_never_ends", "expiry_permission_of_channel", "R7"),
    Fault("permission_never_ends", "expiry_permission_and_data", "R7"),
    Fault("refresh_renews_permissions", "expiry_permission_and_refresh", "R7"),
    Fault("sends_on_no_channel", "permission", "R8"),
    Fault("relays_on_any_channel", "channel_not_bound", "R8"),
    Fault("channel_never_ends", "expiry_channel", "R9"),
    Fault("channel_never_ends", "expiry_channel_renewed", "R9"),
    Fault("any_channel_number", "channel_number_too_high", "R10"),
    Fault("any_channel_number", "channel_number_too_low", "R10"),
    Fault("any_channel", "channel_number_conflict", "R11"),
    Fault("any_channel", "channel_peer_conflict", "R11"),
    Fault("names_another_peer", "peers_behind_one_address", "R12"),
    Fault("any_peer", "permission_without_peer", "R12"),
    Fault("truncates_data", "send_sizes", "R13"),
    Fault("truncates_data", "send_8000_bytes", "R13"),
    Fault("relays_padding", "channel_data_padding", "R13"),
    Fault("odd_ports", "allocate_even_port", "R14"),
    Fault("relays_from_another_port", "allocate", "R14"),
    Fault("says_it_lasts", "delete", "R15"),
    Fault("any_transport", "allocate_tcp", "R16"),
    Fault("any_family", "allocate_ipv6", "R16"),
    Fault("maps_another_port", "binding", "R17"),
    Fault("signs_nothing", "allocate", "R18"),
    Fault("challenges_without_nonce", "allocate_without_credentials", "R19"),
    Fault("allocates_again", "allocate_again", "R20"),
    Fault("says_no_lifetime", "refresh", "R21"),
    Fault("grants_one_address_twice", "allocate_two_clients", "R22"),
    Fault("responds_twice", "binding", "S10"),
    Fault("sends_unasked", "permission", "S11"),
    Fault("responds_to_malformed", "malformed_header", "S11"),
    Fault("responds_to_indications", "binding_indication", "S11"),
    Fault("responds_late", "refresh", "S12"),
    Fault("is_silent_on_errors", "allocate_no_transport", "check"),
    Fault("says_500", "allocate_tcp", "check"),
    Fault("ignores_unknown_attributes", "binding_unknown_required", "check"),
    Fault("ignores_unknown_attributes", "send_unknown_attribute", "check"),
    Fault("any_nonce", "credentials_stale_nonce", "check"),
    Fault("lifetime_as_requested", "allocate_short_lifetime", "check"),
    Fault("lifetime_as_requested", "refresh_shorter", "check"),
    Fault("refreshes_nothing", "expiry_allocation_refreshed", "check"),
    Fault("first_peer_alone", "permission_many_peers", "check"),
    Fault("permission_is_for_port", "permission_is_for_address", "check"),
    Fault("channel_permits_nobody", "channel_permits_address", "check"),
    Fault("sends_indications_alone", "channel", "check"),
]
