"""What a situation works with: clients, peers, the time, and checks of what only they see."""

from __future__ import annotations

import random
from dataclasses import dataclass, field

from kit.client import Blocked, Client, Peer, User
from kit.messages import BINDING, REQUEST, Message, describe, encode

SERVER_ADDRESS = "192.0.2.1"
LISTEN = (SERVER_ADDRESS, 3478)
REALM = "example.org"
USER = User("alice", "alice-password", REALM)
OTHER_USER = User("bob", "bob-password", REALM)
# Of the policy: how long after its end a lease may still be used, in seconds.
GRACE = 1
# By how many seconds a LIFETIME may differ from what is computed.
ROUNDING = 2


class NotJudged(Exception):
    """The situation can't be judged with this server or on this machine: the reason."""


@dataclass(frozen=True)
class Check:
    """What a right server does, whether this one did, and otherwise what came."""

    what: str
    is_met: bool
    came: str = ""


def in_words(came: object) -> str:
    """What came, for the report: an endpoint as ADDRESS:PORT, types of attributes as 0x0019."""
    if isinstance(came, tuple) and len(came) == 2:
        return f"{came[0]}:{came[1]}"
    if isinstance(came, list):
        return ", ".join(f"0x{number:04X}" for number in came) or "none"
    return "none" if came is None else str(came)


@dataclass
class Testbed:
    """The net opens sockets and has the time: kit/net.py with real ones, tests/kit/virtual_net.py without any."""

    net: object
    has_other_user: bool = True
    patience: float = 5.0
    """How long a response or data may take, in seconds."""
    quiet: float = 0.3
    """How long is waited for what must not come, in seconds."""
    listen: tuple[str, int] = LISTEN
    chance: random.Random = field(default_factory=random.SystemRandom)
    """Where transaction ids come from; tests take a seed, so that each run sends the same bytes."""
    checks: list[Check] = field(default_factory=list)
    notes: list[str] = field(default_factory=list)

    def client(self, host: int = 1, port: int = 40000, user: User = USER) -> Client:
        """A client at 198.51.100.HOST."""
        return Client(self, self.net.open_socket("client", (f"198.51.100.{host}", port)), user)

    def peer(self, host: int = 1, port: int = 7000) -> Peer:
        """A peer at 203.0.113.HOST."""
        return Peer(self, self.net.open_socket("peer", (f"203.0.113.{host}", port)))

    @property
    def other_user(self) -> User:
        """A second valid user, if the server's command takes one."""
        if not self.has_other_user:
            raise NotJudged("the server's command has no {other_user} and {other_password}")
        return OTHER_USER

    def now(self) -> float:
        return self.net.now()

    def wait(self, seconds: float) -> None:
        self.net.wait(seconds)

    def wait_until(self, moment: float) -> None:
        self.net.wait(max(0.0, moment - self.now()))

    def settle(self) -> None:
        """Waits until what was sent has reached the server and was worked on."""
        self.net.wait(self.quiet)

    def check(self, is_met: bool, what: str, came: object = "") -> bool:
        """Notes whether the server did what a right one does, and what came."""
        self.checks.append(Check(what, is_met, in_words(came)))
        return is_met

    def note(self, text: str) -> None:
        """Something that a right server may do or not, for the report."""
        self.notes.append(text)

    def expect_success(self, response: Message | None, what: str) -> bool:
        return self.check(response is not None and response.is_success, f"{what} gets a success response", describe(response))

    def expect_error(self, response: Message | None, codes: int | tuple[int, ...], what: str) -> bool:
        """Checks that the response is an error response with this code, or one of these."""
        codes = (codes,) if isinstance(codes, int) else codes
        is_met = response is not None and response.error in codes
        return self.check(is_met, f"{what} gets {' or '.join(map(str, codes))}", describe(response))

    def expect_lifetime(self, seconds: int | None, least: int, most: int, what: str) -> bool:
        """Checks a LIFETIME. A server may count from when it made the allocation, and round."""
        is_met = seconds is not None and least - ROUNDING <= seconds <= most + ROUNDING
        return self.check(is_met, f"{what} has LIFETIME {least}" + (f" to {most}" if most != least else ""), seconds)

    def expect_silence(self, client: Client, payload: bytes, what: str) -> bool:
        """Sends what a server has to discard, and checks that nothing comes back."""
        client.send(payload)
        got = client.receive(self.quiet)
        return self.check(got is None, f"{what} is discarded without a response", f"{len(got or b'')} bytes came")

    def expect_alive(self, client: Client) -> bool:
        """Checks that the server still responds to a Binding request."""
        response = client.exchange(encode(BINDING | REQUEST, client.transaction()))
        return self.check(response is not None and response.is_success, "the server then responds to a Binding request", describe(response))

    def end_server(self) -> bool:
        """Ends the server by SIGTERM. Whether that was enough."""
        return self.net.end_server()

    def not_judged(self, reason: str) -> None:
        raise NotJudged(reason)


__all__ = ["Blocked", "Check", "GRACE", "LISTEN", "NotJudged", "OTHER_USER", "REALM", "SERVER_ADDRESS", "Testbed", "USER"]
