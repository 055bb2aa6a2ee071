"""Makes random scripts: right ones, and at times one with a line of a form that isn't replayed.

Ranges move between the batches and, step by step, beside them. A maker follows the script's world
as it goes, so that its lines meet ranges that are there.
"""
import random
from collections import namedtuple

from plain_store import ALONE, BOUND, HIGH, LOW, RANGE_KINDS, READS, WRITES, illegal, kind_of, \
    span_of
from world import MOVES, World

TOP = 1_000_000_000
INTS = (0, 1, 2, -1, -3, 7, LOW, LOW + 1, HIGH, HIGH - 1)
TEXTS = ("x", "y", "", "1", "\u00e9\u2603", "q\"\\\n\u0001", "t" * 256)

# A script's letters, its ranges and the nodes of one at most, how many lines in a hundred move a
# range, how many batches have events, so many at most and up to such a step, and the weights of the
# moves as MOVES has them.
Style = namedtuple("Style", "letters ranges copies moves beside most late weights")
STYLES = (Style("abc", 12, 7, 0, 0, 1, 1, (1, 1, 1, 1, 1)),
          Style("abcdefgh", 60, 3, 0, 20, 3, 40, (1, 1, 1, 1, 1)),
          Style("abc", 3, 5, 45, 60, 9, 9, (6, 5, 1, 1, 1)),
          Style("abcdefgh", 6, 3, 15, 60, 25, 5, (16, 2, 1, 1, 1)),
          Style("abc", 8, 5, 35, 50, 4, 6, (1, 1, 5, 4, 1)),
          Style("abc", 4, 2, 50, 50, 6, 6, (2, 2, 1, 3, 6)),
          Style("abcdefgh", 60, 7, 15, 40, 6, 40, (3, 3, 2, 2, 1)),
          Style("a\0\u00fe\u00ff", 12, 3, 25, 40, 5, 12, (2, 2, 2, 2, 2)))


class Maker:
    """Makes one random script, line by line; `open` is the stamp of the open transaction."""

    def __init__(self, seed):
        self.random, self.open, self.world, self.nodes = random.Random(seed), None, None, None
        self.clock = self.random.randint(1, 8)
        self.style = self.random.choice(STYLES)

    def chance(self, percent):
        return self.random.randrange(100) < percent

    def key(self, least=0):
        key = "".join(self.random.choices(self.style.letters, k=self.random.randint(least, 3)))
        return "a" * 60 * self.chance(1) + (key if key < BOUND else "a")

    def key_in(self, home):
        """A key of the range `home`, where a few tries find one; any key where that is None."""
        fits = (k for k in (self.key() for _ in range(30)) if not home or home[1] <= k < home[2])
        return next(fits, home and home[1])

    def value(self):
        return self.random.choice(INTS if self.chance(60) else TEXTS)

    def stamp(self):
        near = self.clock + self.random.randint(-6, 3)
        return TOP - self.random.randint(0, 1) if self.chance(2) else max(1, near)

    def span(self, home):
        if self.chance(10):
            return ["", BOUND]
        one, two = sorted((self.key_in(home), self.key_in(home)))
        if self.chance(3):
            return [two, one]
        end = home[2] if home else BOUND
        return [one, end if self.chance(20) else two if one < two else one + "\0"]

    def request(self, kind, home):
        key = BOUND if self.chance(1) else self.key_in(home)
        if kind == "cput":
            expect = None if self.chance(50) else self.value()
            absent = {"allow_absent": self.chance(70)} if self.chance(40) else {}
            return {kind: {"key": key, "value": self.value(), "expect": expect, **absent}}
        if kind in RANGE_KINDS:
            return {kind: self.span(home)}
        if kind in ("get", "delete", "admin_split"):
            return {kind: "a" * 64 if kind != "admin_split" and self.chance(1) else key}
        if kind == "admin_lease":
            return {kind: [key, self.node(key)]}
        return {kind: [key, self.random.choice(INTS) if kind == "increment" else self.value()]}

    def requests(self, kinds, home):
        if self.chance(1):
            return [self.request("get", home)] * self.random.choice((0, 0, 256, 257))
        return [self.request(self.random.choice(kinds), home)
                for _ in range(self.random.choice((1, 1, 2, 3, 4, 6)))]

    def homes(self, nodes):
        """The nodes of a range, of so many."""
        many = self.random.randint(1, min(nodes, self.style.copies))
        return self.random.sample(range(1, nodes + 1), many)

    def cluster(self):
        starts = {self.key(1) for _ in range(self.random.randrange(self.style.ranges))}
        self.nodes, ranges = self.random.choice((1, 3, 5, 64)), []
        for start in [""] + sorted(starts):
            homes = self.homes(self.nodes)
            ranges.append({"start": start, "nodes": homes, "lease": self.random.choice(homes)})
        line = {"op": "cluster", "nodes": self.nodes, "ranges": ranges}
        self.world = World(line)
        return line

    def row(self, key):
        """The range that contains the key, or the last one for the bound."""
        return self.world.ranges[self.world.place(key)]

    def node(self, key):
        """A node, most often a replica of the range that contains the key."""
        return self.random.choice(self.row(key)[4] if self.chance(85)
                                  else range(1, self.nodes + 1))

    def replicas(self, key):
        """Nodes for the range that contains the key, at times of those that it has."""
        old = self.row(key)[4]
        if self.chance(15):
            return self.random.sample(old, len(old) - (len(old) > 1 and self.chance(50)))
        return self.homes(self.nodes)

    def back(self):
        return self.random.choice((1, 1, 1, 2, 2, 3, 5, self.random.randint(1, 40), 1_000_000))

    def move(self):
        """A line, or an event without its time, that moves a range or arms an old descriptor."""
        op, key = self.random.choices(list(MOVES), self.style.weights)[0], self.key()
        if op == "stale":
            return {"op": op, "key": key, "back": self.back()}
        more = {"lease": ("node", self.node), "move": ("nodes", self.replicas)}
        return {"op": op, "key": key, **({more[op][0]: more[op][1](key)} if op in more else {})}

    def write(self):
        stamp = min(TOP, self.open + self.random.randint(1, 4)) if self.open else self.stamp()
        value = None if self.chance(20) else self.value()
        return {"op": "write", "key": self.key(), "stamp": stamp, "value": value}

    def event(self, requests, floor):
        """An event beside a batch; a write is above the floor, often at a key that is asked for."""
        if floor >= TOP or self.chance(70):
            return self.move()
        asked = [key for key in (span_of(one)[0] for one in requests) if key < BOUND]
        key = self.random.choice(asked) if asked and self.chance(60) else self.key()
        value = None if self.chance(20) else self.value()
        stamp = min(TOP, floor + self.random.randint(1, 4))
        return {"op": "write", "key": key, "stamp": stamp, "value": value}

    def with_block(self, line):
        """The batch with events and picks."""
        floor = max(self.open or 0, line.get("stamp", 0))
        if self.chance(self.style.beside):
            many = self.random.randint(1, self.style.most) if self.random.randrange(500) else 1_000
            late = self.random.choice((2, self.style.late))
            times = sorted(self.random.randint(1, late) for _ in range(many))
            times[-1] = 1_000_000 if self.chance(5) else times[-1]
            line["events"] = [{**self.event(line["requests"], floor), "at": time} for time in times]
        if self.chance(50):
            picks = (0, 1, 2, 3, 5, 15, 16, self.random.randint(0, 40), 1_000_000)
            line["picks"] = self.random.choices(picks, k=self.random.choice((0, 1, 3, 20, 60)))
        return line

    def stamped_batch(self):
        """A batch with a stamp that reads or writes; beside a transaction it reads below that."""
        stamp = self.stamp()
        kinds = READS if self.chance(35) else WRITES if self.chance(92) else READS + WRITES
        if self.open:
            kinds, stamp = READS, self.random.randint(max(1, self.open - 8), self.open - 1)
        home = self.random.choice(self.world.ranges) if self.chance(75) else None
        line = {"op": "batch", "stamp": stamp, "requests": self.requests(kinds, home)}
        if self.chance(50 if kinds == READS else 4):
            line["consistent"] = self.chance(20)
        if self.chance(50) and all(kind_of(one) in READS for one in line["requests"]):
            line["consistent"] = False
        return line

    def admin_batch(self):
        """A batch that splits a range or moves a lease; where it asks for more it is illegal."""
        kinds = ALONE if self.open or self.chance(75) else ALONE + ("get", "put")
        requests = [self.request(self.random.choice(ALONE), None)]
        requests += [self.request(self.random.choice(kinds), None)] * self.chance(5)
        line = {"op": "batch", "stamp": self.stamp(), "requests": requests}
        return dict(line, consistent=self.chance(80)) if self.chance(20) else line

    def own_batch(self):
        return self.with_block(self.stamped_batch() if self.chance(88) else self.admin_batch())

    def txn_batch(self):
        line = {"op": "batch", "txn": True, "requests": self.requests(READS, None)}
        return self.with_block(dict(line, consistent=self.chance(50)) if self.chance(5) else line)

    def begin(self):
        self.open = self.stamp()
        return {"op": "begin", "stamp": self.open, "key": self.key()}

    def close(self):
        self.open = None
        return {"op": "close"}

    def unbuilt(self):
        """A line that is right and yet of a form that isn't replayed."""
        key, stamp = self.key(), max(1, (self.open or 2) - 1)
        batch, txn = {"op": "batch", "stamp": stamp}, {"op": "batch", "txn": True}
        lines = [dict(batch, requests=[{"resolve": [key, 1]}]), {"op": "arrive", "copy": 1},
                 dict(batch, requests=[{"resolve_range": ["a", "b", 1]}])]
        events = [{"op": "lose_request"}, {"op": "lose_reply", "copy": 3},
                  {"op": "copy", "copy": 7}, {"op": "arrive", "copy": 1}]
        events += [{"op": "abort"}] * bool(self.open)
        if self.open != 1:
            read = dict(batch, requests=[{"reverse_scan": ["a", "b"]}])
            lines += [dict(read, limit=2),
                      dict(read, events=[dict(self.random.choice(events), at=2)])]
        ends = ({"end": {"commit": True}}, {"query_intent": [key, 1]})
        if self.open:
            kinds = ({"put": [key, 1]}, {"admin_split": key}, *ends)
            lines += [dict(txn, requests=[self.random.choice(kinds)]), {"op": "abort"},
                      {"op": "restart"}]
        else:
            lines.append(dict(batch, requests=[self.random.choice(ends)]))
        return self.random.choice(lines)

    def line(self):
        """The next line; the world's ranges move as it does, more or less where it is a batch."""
        self.clock += self.chance(25)
        line = self.move() if self.chance(self.style.moves) else self.asking_line()
        self.follow(line)
        return line

    def asking_line(self):
        """A line that writes, begins, asks or closes."""
        draw = self.random.randrange(100)
        if not self.open:
            return self.write() if draw < 30 else self.own_batch() if draw < 90 else self.begin()
        if draw < 20 and self.open < TOP:
            return self.write()
        if draw < 40 and self.open > 1:
            return self.own_batch()
        return self.txn_batch() if draw < 80 else self.close()

    def follow(self, line):
        """Moves the world's ranges as the line and its events do."""
        for event in [line] + line.get("events", []):
            if event["op"] in MOVES:
                self.world.event(event)
        requests = line.get("requests", ())
        if requests and kind_of(requests[0]) == "admin_split" and not illegal(line):
            self.world.split(requests[0]["admin_split"])

    def script(self):
        """The lines, None for a blank one, and the number of the line of an unbuilt form."""
        lines, fault, size = [self.cluster()], None, self.random.randint(0, 40)
        unbuilt = self.random.randint(0, size) if self.chance(5) else None
        for place in range(size + 1):
            lines += [None] * self.chance(3)
            if place == unbuilt:
                lines.append(self.unbuilt())
                fault = len(lines)
            lines.append(self.line())
        return lines + ([self.close()] if self.open else []), fault
