"""The verdict of a certificate: placement, then one walk over the one list of all moves, by one table.

Of the plain checker `checker` imports `server` and `reading`, `server` imports `stun` and `reading`, and `reading` imports `stun`. Beside
them it has Python's standard library alone: nothing of turnaudit, of the finder's simulated server (tests/simulated.py) or of bench/.
tests/beside_plain.py, tests/sha256.py and tests/skews.py run it beside the program; tests/fuzz.py imports `read_policy` of it.
"""

from .reading import text_of, up_to
from .server import Broken, Server

TEXTS = {
    "S1": "unplaced", "S2": "placed twice", "S3": "stranger", "S4": "window", "S5": "interface order", "S6": "lane order",
    "S7": "side", "S8": "endpoint", "S9": "act before arrival", "S10": "acted twice", "S11": "left without act",
    "S12": "held too long", "S13": "act without departure", "R1": "not an answer", "R2": "credentials", "R3": "other user",
    "R4": "no allocation", "R5": "allocation over", "R6": "no permission", "R7": "permission over",
    "R8": "channel not bound", "R9": "channel over", "R10": "channel number", "R11": "channel conflict",
    "R12": "peer differs", "R13": "data differs", "R14": "relayed address", "R15": "lifetime",
    "R16": "transport or family", "R17": "mapped address", "R18": "response integrity", "R19": "error condition",
    "R20": "allocation present", "R21": "leaving datagram malformed", "R22": "address held",
}
RANKS = {rule: rank for rank, rule in enumerate(TEXTS)}


class Checker:
    """What is judged, and the breaches so far as (moment, tie, lane, rank, place, sight)."""

    def __init__(self, policy, keys, sightings, lanes, drops, skews):
        self.policy, self.keys, self.sightings = policy, keys, sightings
        self.lanes, self.drops, self.skews = lanes, drops, skews

    def rows(self):
        """Each lane's events, and the drops as a lane behind the others."""
        return [lane.events for lane in self.lanes] + [self.drops]

    def verdict(self):
        """The least breach of the lowest phase that has one, with the phase; or None."""
        breaches = self.misplaced()
        if breaches:
            return 1, min(breaches)
        walk = Walk(self)
        walk.run()
        if walk.broken:
            return 2, min(walk.broken.values())
        return (3, min(walk.clashes)) if walk.clashes else None

    # Placement (S1 to S8).

    def misplaced(self):
        found, first = [], {}
        for lane, events in enumerate(self.rows()):
            for place, event in enumerate(events):
                if event.kind != "act":
                    first.setdefault(event.sights[0], (lane, place, event.key))
        for lane, events in enumerate(self.rows()):
            for place, event in enumerate(events):
                for rule, sight in self.faults(first, lane, place, event, events):
                    found.append((*event.key, lane, RANKS[rule], place, sight))
        for name, sighting in self.sightings.items():
            if name not in first:
                found.append((sighting.stamp, 0, len(self.lanes), RANKS["S1"], len(self.drops), name))
        return found

    def faults(self, first, lane, place, event, events):
        sight = event.sights[0]
        seen = [self.sightings.get(name) for name in event.sights]
        missing = [name for name, sighting in zip(event.sights, seen) if sighting is None]
        if missing:
            yield "S3", missing[0]
        if place and event.key <= events[place - 1].key:
            yield "S6", sight
        ways = {"act": (True, False), "out": (False,)}.get(event.kind, (True,))
        if any(sighting and sighting.arrives != way for sighting, way in zip(seen, ways)):
            yield "S7", sight
        if event.kind == "act":
            return
        if first[sight][:2] != (lane, place):
            yield "S2", sight
        else:
            before = first.get((sight[0], sight[1] - 1))
            if seen[0] and before and event.key <= before[2]:
                yield "S5", sight
        if seen[0]:
            yield from self.faults_of_one(lane, event, sight, seen[0])

    def faults_of_one(self, lane, event, sight, sighting):
        skew = self.policy.skew_for(sight[0])
        skew = min(skew, self.skews.get(sight[0], skew))
        if not max(0, sighting.stamp - skew) <= event.key[0] <= up_to(sighting.stamp + skew):
            yield "S4", sight
        if lane == len(self.lanes):
            return
        client, listen = self.lanes[lane].client, self.lanes[lane].listen
        path = (sighting.source, sighting.target)
        if event.kind == "in" and self.policy.listens(sighting.target) and path != (client, listen):
            yield "S8", sight
        if event.kind == "out" and self.policy.listens(sighting.source) and path != (listen, client):
            yield "S8", sight


class Walk:
    """One list of all moves, by moment, tie and lane. A lane is followed up to its first fault."""

    def __init__(self, checker):
        self.checker = checker
        self.server = Server(checker.policy, checker.keys)
        self.came, self.acted, self.given, self.owed = {}, set(), {}, {}
        self.broken, self.clashes = {}, []

    def run(self):
        moves = sorted(
            (*event.key, lane, place, event)
            for lane, events in enumerate(self.checker.rows())
            for place, event in enumerate(events)
            if event.kind != "drop"
        )
        for moment, tie, lane, place, event in moves:
            if lane in self.broken:
                continue
            try:
                getattr(self, event.kind)(lane, place, moment, tie, *event.sights)
            except Broken as fault:
                self.broken[lane] = (moment, tie, lane, RANKS[fault.rule], place, event.sights[0])
        for (lane, _), owed in sorted(self.owed.items()):
            self.broken.setdefault(lane, owed)

    def held(self, since, moment):
        if moment > up_to(since + self.checker.policy.hold):
            raise Broken("S12")

    # The moves; a sighting that a lane names is the lane's alone.

    def enter(self, lane, place, moment, tie, sight):
        self.came.setdefault((lane, sight), moment)

    def act(self, lane, place, moment, tie, arrives, leaves):
        if (lane, arrives) not in self.came:
            raise Broken("S9")
        if (lane, arrives) in self.acted or (lane, leaves) in self.given:
            raise Broken("S10")
        since = self.came[lane, arrives]
        self.held(since, moment)
        of = self.checker.lanes[lane]
        pair, sightings = (of.client, of.listen), self.checker.sightings
        before = self.server.table.get(pair)
        self.server.act(*pair, sightings[arrives], sightings[leaves], moment)
        now = self.server.table.get(pair)
        if now is not before and now is not None and self.server.held_by_another(pair, now.relayed, moment):
            self.clashes.append((moment, tie, lane, RANKS["R22"], place, arrives))
        self.acted.add((lane, arrives))
        self.given[lane, leaves] = since, place
        self.owed[lane, place] = (moment, tie, lane, RANKS["S13"], place, arrives)

    def leave(self, lane, place, moment, tie, sight):
        if (lane, sight) not in self.given:
            raise Broken("S11")
        since, acted = self.given[lane, sight]
        self.held(since, moment)
        self.owed.pop((lane, acted), None)


setattr(Walk, "in", Walk.enter)
setattr(Walk, "out", Walk.leave)


def report(checker):
    """The text that turnaudit prints, and its status."""
    found = checker.verdict()
    if found is None:
        return f"turnaudit-report 1\nconforming {len(checker.sightings)} datagrams {len(checker.lanes)} lanes\n", 0
    phase, (moment, tie, lane, rank, place, (interface, index)) = found
    rule = list(TEXTS)[rank]
    sighting = checker.sightings.get((interface, index))
    datagram = (
        f"{text_of(sighting.source)} to {text_of(sighting.target)} {len(sighting.payload)} bytes" if sighting else "unknown"
    )
    return (
        f"turnaudit-report 1\nnot shown\nrule {rule} {TEXTS[rule]}\n"
        f"phase {phase} lane {lane} event {place} moment {moment} tie {tie}\ndatagram {interface}.{index} {datagram}\n"
    ), 1
