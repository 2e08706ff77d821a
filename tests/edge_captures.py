#!/usr/bin/env python3
"""Audits random captures of a simulated server at the edges of what RFC 8656 and a policy allow, and tells those that are not shown.

    python3 tests/edge_captures.py PROGRAM [--first 1] [--count 500]
    python3 tests/edge_captures.py --write FOLDER --first SEED

Beside what random_captures.py has: a hold of 0 to 10 milliseconds, of which the server takes up to all; allocations of 1 to 30
seconds, and data and requests around the ends of allocations, permissions and channels; captures of the far side of a network, where
datagrams are seen before the server has them or after they left it, and overtake one another; two clients of one address, that ask
two listen addresses; many things in one nanosecond. What the simulated server did conforms, and is checked where nothing is found.

It goes by tests/random_captures.py and tests/simulated.py, and by them on bench/make_capture.py.
"""

import pathlib
import random
import sys

sys.path.insert(0, str(pathlib.Path(__file__).resolve().parent.parent / "bench"))

from make_capture import SERVER
from random_captures import Case, main
from simulated import FIRST_PORT, SECOND, Clients, Server, client_address

MILLISECOND = 1_000_000
SECOND_LISTEN = (SERVER[0], SERVER[1] + 1)
PERMISSION, CHANNEL = 300, 600


class EdgeClients(Clients):
    """Clients that send around the ends of what they have."""

    def __init__(self, seed):
        super().__init__(seed)
        draw = self.draw
        self.setting.sequential = False
        self.hold = draw.choice([0, 1, 2, 5, 10]) * MILLISECOND
        self.far = draw.choice([0, 0, self.hold // 5, self.hold // 3])
        self.lifetime = draw.choice([1, 2, 5, 30, 600])
        self.shared = draw.random() < 0.3
        self.ends = []

    def next_moment(self, moment):
        near = [end for end in self.ends if moment < end - 12 * MILLISECOND]
        if near and self.draw.random() < 0.1:
            return min(near) + self.draw.randint(-12, 12) * MILLISECOND + self.draw.randint(-1000, 1000)
        return super().next_moment(moment)

    def input_at(self, moment):
        one = super().input_at(moment)
        if one.lifetime:
            one.lifetime = self.lifetime
        lasts = {"allocate": self.lifetime, "refresh": one.lifetime, "permission": PERMISSION, "channel": self.draw.choice([PERMISSION, CHANNEL])}
        if lasts.get(one.kind):
            self.ends = [end for end in self.ends if end > moment][-8:] + [moment + lasts[one.kind] * SECOND]
        self.delay(one)
        return one

    def copy_of(self, one):
        again = super().copy_of(one)
        self.delay(again)
        return again

    def delay(self, one):
        """The server takes some of what the network leaves of the hold, or all of it."""
        left = self.hold - 2 * self.far
        taken = left if self.draw.random() < 0.2 else self.draw.randint(0, left)
        one.act_delay = self.draw.choice([0, taken, self.draw.randint(0, taken)])
        one.leave_delay = taken - one.act_delay


class EdgeServer(Server):
    """Things may be at one moment; what is captured may be seen on the far side of a network."""

    def __init__(self, clients, inputs):
        super().__init__(clients.setting, inputs)
        self.clients = clients
        self.lifetime = clients.lifetime

    def ends_of(self, client):
        if not self.clients.shared:
            return client_address(client), SERVER
        return client_address(client // 2), (SERVER, SECOND_LISTEN)[client % 2]

    def plan(self):
        plan = []
        for number, one in enumerate(self.inputs):
            one.arrival = one.moment
            plan.append((one.arrival + one.act_delay, one.arrival + one.act_delay + one.leave_delay, number))
        return plan

    def run(self):
        super().run()
        draw = random.Random(self.setting.seed * 7 + 3)
        for seen in self.seen:
            if seen.interface < self.setting.client_interfaces:
                away = draw.randint(0, self.clients.far)
                seen.moment += away if seen.way == "out" else -away
        # Of one moment the arrivals stand first, then what leaves, in the order of the acts.
        self.seen.sort(key=lambda seen: seen.moment)


class EdgeCase(Case):
    def __init__(self, seed):
        clients = EdgeClients(seed)
        self.clients, self.setting = clients, clients.setting
        self.inputs = clients.inputs()
        self.server = EdgeServer(clients, self.inputs)
        self.server.run()

    def policy(self):
        second = "listen %s:%d\n" % SECOND_LISTEN if self.clients.shared else ""
        return f"turnaudit-policy 1\nlisten {SERVER[0]}:{SERVER[1]}\n{second}relay {SERVER[0]}:{FIRST_PORT}-65535\nhold-ms {self.clients.hold // MILLISECOND}\ngrace-ms 0\n"

    def truth(self, names):
        """The certificate of what the server did: what happens in one moment has ties in the order in which it happened."""
        moments = {(seen.way, seen.input): seen.moment for seen in self.server.seen}
        answered = {number: order for order, (_, number, _, _) in enumerate(self.server.acts)}
        events = [(moments["in", number], 0, number, None if number in answered else "drop", number) for number in range(len(self.inputs))]
        for order, (client, number, act, _) in enumerate(self.server.acts):
            events += [(act, 1, order, client, number), (moments["out", number], 2, order, client, number)]
        clients = {number: client for client, number, _, _ in self.server.acts}
        lanes, drops, last, tie = {}, [], None, 0
        for moment, stage, _, whose, number in sorted(events, key=lambda event: event[:3]):
            tie = tie + 1 if moment == last else 0
            last = moment
            came = names["in", number]
            if whose == "drop":
                drops.append(f"drop {came} {moment} {tie}")
                continue
            words = (f"in {came}", f"act {came} {names.get(('out', number))}", f"out {names.get(('out', number))}")[stage]
            lanes.setdefault(clients[number], []).append(f"{words} {moment} {tie}")
        lines = ["turnaudit-certificate 1"]
        for client, placed in sorted(lanes.items()):
            source, listen = self.server.ends_of(client)
            lines += ["lane %s:%d %s:%d" % (*source, *listen), *placed]
        return "".join(f"{line}\n" for line in [*lines, *drops, "end"])


if __name__ == "__main__":
    main(EdgeCase, __doc__)
