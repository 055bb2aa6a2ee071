"""What a sender that remembers ranges keeps to, as its steps show it.

It doesn't look up what it was told, goes by what it remembers and where a refusal sends it, has up
to sixteen pieces under way of which the script's picks choose, and is refused only so often as
ranges moved. What its cache holds isn't printed, so these checks know the part of it that is sure.
"""
from bisect import insort

from plain_store import ALONE, kind_of, span_of, span_of_all
from world import MOVES, contains, holds, hull, overlap

AT_ONCE, BESIDE, TRIES = 16, 20, 512
REFUSALS = ("not_found", "lease", "mismatch")


def answer_of(step, name):
    """What a send was answered under a name, or None."""
    told = step.get("send")
    return told.get(name) if isinstance(told, dict) else None


class Memory:
    """The rows that the sender surely remembers, by their ranges; a lease may be unsure.

    A row that shows a range as it is goes before all that it overlaps. It stays until such a row
    overlaps it, or a send to its range is refused. This holds while the cache has room for all
    rows. `gone` has the ranges whose rows were forgotten in the batch at hand.
    """

    def __init__(self):
        self.rows, self.unsure, self.gone = {}, set(), set()

    def row_of(self, key, direction):
        return next((row for row in self.rows.values() if contains(row, key, direction)), None)

    def learn(self, row):
        """Takes in a row that a lookup or a mismatch has told."""
        beside = [one for one in self.rows.values() if overlap(one, row)]
        same = next((one for one in beside if one[:5] == row[:5]), None)
        is_old = row[6] == 0
        if same:
            self.rows[row[0]] = max(same, row, key=lambda one: one[6])
            self.unsure -= set() if is_old else {row[0]}
        elif not is_old or all(one[3] < row[3] for one in beside):
            self.forget(one[0] for one in beside)
            self.rows.update({} if is_old else {row[0]: row})

    def forget(self, numbers):
        for number in list(numbers):
            self.rows.pop(number, None)
            self.unsure.discard(number)
            self.gone.add(number)

    def follow_lease(self, number, lease, route):
        """Takes in where the lease is said to be, by a send whose route's row may be known."""
        row = self.rows.get(number)
        if row and lease[0] not in row[4]:
            self.forget([number])
        elif row and route and route[:5] == row[:5] and number not in self.gone:
            self.rows[number] = max(row, row[:5] + lease, key=lambda one: one[6])
        elif row:
            self.unsure.add(number)

    def route_of(self, key, direction):
        """The row of a key, and its nodes in the order of trying, None where unsure."""
        row = self.row_of(key, direction)
        return row, row and row[0] not in self.unsure and order_of(row)


def order_of(row):
    """The nodes of a row as they are tried: the leaseholder first."""
    return sorted(row[4], key=lambda node: node != row[5])


class Way:
    """Where a piece goes on: its route's row, the nodes still to be tried, and the next node.

    Each is None where it isn't sure.
    """

    def __init__(self, key, row, order):
        self.key, self.row, self.order, self.next = key, row, order or None, None
        self.advance()

    def advance(self):
        """Goes on to the next node; whether one is left, where that is sure."""
        is_left = self.order is None or bool(self.order)
        self.next = self.order.pop(0) if self.order else None
        return is_left

    def follow(self, node, known):
        """Goes on to the node with the lease; whether it is one of the route's."""
        if self.order and node in self.order:
            self.order.remove(node)
        is_sure = node in self.row[4] if self.row else all(node in one[4] for one in known)
        self.next = node if is_sure else None
        return is_sure or not self.row


class Habits:
    """What is known so far: what is remembered, where pieces go, and what the batch was told."""

    def __init__(self, capacity, budget):
        self.capacity, self.budget, self.still = capacity, budget, True
        self.memory, self.routes, self.ways = Memory(), {}, {}
        self.told, self.shown, self.news = [], 0, False

    def begin(self, block, rows):
        """Takes in that a batch comes, beside which ranges may move."""
        moves = any(one["op"] in MOVES for one in block.events)
        asks = any(kind_of(one) in ALONE for one in block.line["requests"])
        self.still = self.still and not moves and not asks
        self.routes, self.ways, self.memory.gone = {}, {}, set()
        self.told, self.shown, self.news = [], len(rows.shown), False

    def step_fault(self, course, step):
        """What a sender wouldn't do in a step, or None."""
        row = self.memory.row_of(course.first_key(), course.direction())
        if course.whole and row and not holds(row, *course.whole):
            return "the sender remembers that no one range holds the batch"
        if "look" in step:
            return self.lookup_fault(step["key"], step["dir"])
        if course.cut(*course.whole or hull(step["piece"])) != step["piece"]:
            return "a piece leaves out what lies beside its items"
        return self.way_fault(course, step)

    def lookup_fault(self, key, direction):
        """Why a sender wouldn't look this key up, or None."""
        if self.memory.row_of(key, direction):
            return "a lookup asks for a key of a row that is remembered"
        if any(contains(row, key, direction) for row in self.told[:self.capacity]):
            return "a lookup asks for a key of a mismatch's rows"
        if any(way.next for way in self.ways.values() if way.key == key):
            return "a lookup asks for a piece that has a node to go to"
        return None

    def way_fault(self, course, step):
        """Whether a send doesn't go where its piece's route or the last refusal leads."""
        name = step["range"], str(step["piece"])
        if name not in self.ways:
            key = course.seek_key(step["piece"])
            told = self.routes.pop((course.place, key), None)
            route = (told, order_of(told)) if told else (None, None) if self.news else \
                self.memory.route_of(key, course.direction())
            self.ways[name] = Way(key, *route)
        way = self.ways[name]
        if way.row and way.row[0] != step["range"]:
            return f"a piece doesn't go to range {way.row[0]}"
        if way.next not in (None, step["node"]):
            return f"a piece doesn't go to node {way.next}"
        return None

    def note(self, block, step, rows):
        """Takes in what a step was answered."""
        told = step.get("look") or answer_of(step, "mismatch") or []
        if "look" in step:
            self.told = []
            self.ways = {name: way for name, way in self.ways.items() if way.key != step["key"]}
            self.routes[block.course.place, step["key"]] = told[0]
        elif block.last in REFUSALS:
            self.told = told
            self.note_refusal(block.course, step, rows)
        else:
            del self.ways[step["range"], str(step["piece"])]
        if len(rows.shown) > self.capacity:
            self.memory = Memory()
        elif block.refused < self.budget:
            for row in told:
                self.memory.learn(row)
        self.news = self.news or bool(told)

    def note_refusal(self, course, step, rows):
        """Takes in where a piece goes on that was refused."""
        name, lease = (step["range"], str(step["piece"])), answer_of(step, "lease")
        way = self.ways[name]
        if lease:
            goes_on = way.follow(lease[0], rows.by_range.get(step["range"], ()))
            self.memory.follow_lease(step["range"], lease, way.row)
        else:
            goes_on = step["send"] == "not_found" and way.advance()
            self.memory.forget([step["range"]])
        if self.told:
            self.routes[course.place, way.key] = self.told[0]
        if not goes_on:
            del self.ways[name]

    def batch_fault(self, block, world, rows, armed):
        """What a sender wouldn't do in a whole batch, or None; so many rows were armed before."""
        sends = [step for step in block.steps if "send" in step]
        done = sum("done" in step["send"] for step in sends)
        if len(block.steps) - len(sends) > done + block.refused + BESIDE:
            return "it looks up more often than its sends need"
        if block.refused > TRIES and block.refused > self.bound(block, rows, armed):
            return "it is refused more often than the ranges moved"
        if self.still and block.refused:
            return "it is refused though no range has moved"
        if "op_requires_txn" in block.answer:
            row = self.memory.row_of(block.course.first_key(), block.course.direction())
            right = not row or row[:5] == block.answer["op_requires_txn"]["desc"]
            return None if right else "another row is remembered for the part's first key"
        if "ok" in block.answer:
            return self.pieces_fault(block.course, world) or self.picks_fault(block, sends)
        return None

    def bound(self, block, rows, armed):
        """How often a batch may be refused, by the ranges that were known and what moved."""
        asked = [0, *span_of_all(block.line["requests"])]
        known = sum(overlap(one, asked) for one in rows.shown[:self.shown])
        return TRIES * len(block.course.parts) * (known + block.made + armed + 1)

    def pieces_fault(self, course, world):
        """Whether more pieces went out than there are ranges, where none has moved."""
        for part in course.parts if self.still else ():
            sent = sum(items[0][0] in part for items in course.pieces)
            spans = [[0, *span_of(course.requests[position])] for position in part]
            touched = sum(any(overlap(row, span) for span in spans) for row in world.ranges)
            if sent != touched:
                return f"{sent} pieces went to {touched} ranges that haven't moved"
        return None

    @staticmethod
    def picks_fault(block, sends):
        """Whether a piece was sent that wasn't the one picked of those under way.

        At any time those are the pieces that are still to be sent, without the ones that a refused
        one is cut into later, by where they begin. Of more than sixteen it isn't clear which ones
        are under way once one was refused.
        """
        course, picks = block.course, block.line.get("picks", [])
        place = len(sends)
        for part in reversed(course.parts):
            sent = [step for step in sends if step["piece"][0][0] in part]
            first = next((i for i, one in enumerate(sent) if "done" not in one["send"]), len(sent))
            backward, live = course.direction(part) == "reverse", []
            for number in reversed(range(len(sent))):
                place -= 1
                start, end = hull(sent[number]["piece"])
                live = [one for one in live if not start <= one[0] <= one[1] <= end]
                insort(live, (start, end))
                is_clear = len(live) <= AT_ONCE or number <= first
                listed = (live[::-1] if backward else live)[:AT_ONCE]
                pick = picks[place] if place < len(picks) else 0
                if is_clear and listed[pick % len(listed)] != (start, end):
                    return f"send {place + 1} isn't of the piece that was picked"
        return None
