"""A net without sockets, for tests: the server is called, time is a number, and both sides are captured.

It stands in place of kit/net.py. A wait of 300 seconds takes no time, so that each situation is tried with each broken server, and nothing
depends on how fast the machine is.
"""

from __future__ import annotations

import collections
import heapq
import itertools
import pathlib
import random
import sys

TOP = pathlib.Path(__file__).resolve().parent.parent.parent
sys.path.insert(0, str(TOP / "bench"))
sys.path.insert(0, str(TOP))

from make_capture import Side  # noqa: E402

from kit.testbed import LISTEN  # noqa: E402

START = 1_700_000_000
# How long a datagram is on its way, in seconds.
TRIP = 0.001
# How much of what clients and peers send is lost, if anything is.
LOSS = 0.2


class VirtualSocket:
    """A client's or a peer's socket."""

    def __init__(self, net: "VirtualNet", side: str, endpoint: tuple[str, int]):
        self.net, self.side, self.endpoint = net, side, endpoint
        self.arrived: collections.deque = collections.deque()

    def send(self, payload: bytes, target: tuple[str, int]) -> None:
        self.net.send(self.side, self.endpoint, target, payload)

    def receive(self, seconds: float):
        self.net.run_until(lambda: self.arrived, self.net.moment + seconds)
        return self.arrived.popleft() if self.arrived else None

    def close(self) -> None:
        self.net.sockets.pop(self.endpoint, None)


class VirtualNet:
    """The hosts of one situation. What the server sends, it sends by `receive` and `due` of tests/kit/turn_server.py."""

    def __init__(self, folder: pathlib.Path, server, has_loss: bool = False):
        self.server = server
        # What `tc netem` does on real links, and the same in each run.
        self.chance = random.Random(1) if has_loss else None
        self.moment = 0.0
        self.sockets: dict[tuple[str, int], VirtualSocket] = {}
        self.events: list = []
        self.order = itertools.count()
        self.captures = {"client": Side(folder / "client.pcapng", 0, 0), "peer": Side(folder / "peer.pcapng", 0, 64)}
        self.names = ["client.pcapng", "peer.pcapng"]

    def open_socket(self, side: str, endpoint: tuple[str, int]) -> VirtualSocket:
        self.sockets[endpoint] = VirtualSocket(self, side, endpoint)
        return self.sockets[endpoint]

    def now(self) -> float:
        return self.moment

    def wait(self, seconds: float) -> None:
        self.run_until(lambda: False, self.moment + seconds)

    def end_server(self) -> bool:
        self.server = None
        return True

    def capture(self, side: str, source, target, payload: bytes) -> None:
        self.captures[side].put(round((START + self.moment) * 1_000_000), source, target, payload)

    def later(self, seconds: float, action) -> None:
        heapq.heappush(self.events, (self.moment + seconds, next(self.order), action))

    def run_until(self, is_enough, end: float) -> None:
        """Time passes until something is so, or until the end."""
        while not is_enough():
            if not self.events or self.events[0][0] > end:
                self.moment = max(self.moment, end)
                return
            moment, _, action = heapq.heappop(self.events)
            self.moment = max(self.moment, moment)
            action()

    def send(self, side: str, source, target, payload: bytes) -> None:
        if self.chance is not None and self.chance.random() < LOSS:
            return
        trip = self.chance.uniform(0.005, 0.035) if self.chance else TRIP
        self.later(trip, lambda: self.arrive(side, source, target, payload))

    def arrive(self, side: str, source, target, payload: bytes) -> None:
        """A datagram is at the server, which sends what it sends for it after a while."""
        self.capture(side, source, target, payload)
        for sent in self.server.receive(self.moment, source, target, payload) if self.server else ():
            self.later(TRIP + sent.delay, lambda sent=sent: self.leave(sent))

    def leave(self, sent) -> None:
        if self.server is None:
            return
        side = "client" if sent.source == LISTEN else "peer"
        self.capture(side, sent.source, sent.target, sent.payload)
        self.later(TRIP, lambda: self.deliver(sent))

    def deliver(self, sent) -> None:
        if sent.target in self.sockets:
            self.sockets[sent.target].arrived.append((sent.payload, sent.source))

    def close(self) -> None:
        for capture in self.captures.values():
            capture.out.close()
