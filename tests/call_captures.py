#!/usr/bin/env python3
"""Audits captures of simulated calls that hang up while media still comes, and tells those that are not shown.

    python3 tests/call_captures.py PROGRAM [--first 1] [--count 500] [--most MISSED]

Two to six clients make up to three calls each. A client allocates, binds a channel, sends and is sent media, and deletes its allocation
while datagrams of either side are still in the server: some are relayed within the skew of the deletion's success, some come too late.
A client that calls again at once is given a relayed address that another one may have had. The clocks of the interfaces are apart by
up to 900 microseconds, as in tests/random_captures.py, of which this is the third kind of captures.
"""

import sys

from random_captures import Case, main
from simulated import BASE, PEERS, USERS, Clients, Input, Server

MICROSECOND = 1_000
MILLISECOND = 1_000_000
CHANNEL = 0x4000


class CallClients(Clients):
    """Clients that call, and hang up."""

    def __init__(self, seed):
        super().__init__(seed)
        draw, setting = self.draw, self.setting
        setting.clients = draw.choice([2, 3, 4, 6])
        setting.ports = setting.clients * draw.choice([1, 2])
        setting.sequential = False
        setting.alphabet = 1_000
        setting.zero_success = False
        self.hold = draw.choice([40, 100, 200]) * MILLISECOND
        self.slowest = draw.choice([100, 300, 1_000, 3_000]) * MICROSECOND
        self.gap = draw.choice([2, 5, 10]) * MILLISECOND
        self.length = draw.choice([100, 200, 400]) * MILLISECOND

    def inputs(self):
        inputs = []
        for client in range(self.setting.clients):
            moment = BASE + self.draw.randint(0, self.length)
            for _ in range(self.draw.choice([1, 2, 2, 3])):
                inputs += self.call(client, moment)
                pause = self.draw.choice([100 * MICROSECOND, MILLISECOND, 20 * MILLISECOND, self.length])
                moment = inputs[-1].moment + self.slowest + pause
        return sorted(inputs, key=lambda one: one.moment)

    def call(self, client, moment):
        """What belongs to one call; the last is the Refresh that deletes the allocation."""
        draw = self.draw
        peer = draw.randrange(len(PEERS))
        asked = self.asking(client, "allocate", moment, mode="unauthenticated")
        allocated = self.asking(client, "allocate", self.after(moment), mode="good", pick=client)
        permitted = self.asking(client, "permission", self.after(allocated.moment), peers=[peer])
        bound = self.asking(client, "channel", self.after(permitted.moment), number=CHANNEL, peer=peer)
        begin = bound.moment + self.slowest + MILLISECOND
        end = begin + draw.randint(self.length // 2, self.length)
        deleted = self.asking(client, "refresh", end, lifetime=0)
        media = [
            *self.sendings(client, peer, permitted.moment + self.slowest + MILLISECOND, begin),
            *self.stream(client, begin, end, "channel data", number=CHANNEL),
            *self.stream(client, begin, end + draw.choice([0, 1, 30]) * MILLISECOND, "peer", peer=peer, port=client % self.setting.ports),
            *self.last_media(client, peer, end),
        ]
        return [asked, allocated, permitted, bound, *media, deleted]

    def sendings(self, client, peer, begin, end):
        moments = [self.draw.randint(begin, max(begin, end)) for _ in range(3)]
        return [self.asking(client, "send", moment, peer=peer, data=self.next_data()) for moment in moments]

    def stream(self, client, begin, end, kind, **what):
        moment, stream = begin, []
        while moment < end:
            stream.append(self.input_of(client, kind, moment, data=self.next_data(), **what))
            moment += self.draw.randint(self.gap // 2, self.gap * 3 // 2)
        return stream

    def last_media(self, client, peer, end):
        """What comes so late that the server may be at it while it deletes the allocation."""
        media = []
        for _ in range(self.draw.randint(0, 5)):
            moment = end - self.draw.randint(0, 2 * self.slowest)
            if self.draw.random() < 0.5:
                media.append(self.input_of(client, "channel data", moment, data=self.next_data(), number=CHANNEL))
            else:
                port = client % self.setting.ports
                media.append(self.input_of(client, "peer", moment, data=self.next_data(), peer=peer, port=port))
        return media

    def after(self, moment):
        """A while after the answer to what came then."""
        return moment + self.slowest + self.draw.randint(500 * MICROSECOND, 20 * MILLISECOND)

    def asking(self, client, kind, moment, **what):
        return self.input_of(client, kind, moment, transaction=self.next_transaction(), **what)

    def input_of(self, client, kind, moment, **what):
        draw = self.draw
        return Input(
            **{
                "moment": moment,
                "dropped": False,
                "act_delay": draw.randint(5 * MICROSECOND, self.slowest),
                "leave_delay": draw.randint(5 * MICROSECOND, 60 * MICROSECOND),
                "pick": draw.randrange(1000),
                "error": 0,
                "client": client,
                "user": client % len(USERS),
                "kind": kind,
                **what,
            }
        )


class CallCase(Case):
    """One simulated run."""

    def __init__(self, seed):
        self.clients = CallClients(seed)
        self.setting = self.clients.setting
        self.inputs = self.clients.inputs()
        self.server = Server(self.setting, self.inputs)
        self.server.run()

    def policy(self):
        return f"{super().policy()}hold-ms {self.clients.hold // MILLISECOND}\n"


if __name__ == "__main__":
    sys.exit(main(CallCase, __doc__))
