"""The cluster of a script: ranges that tile the key space and move, and what they answer.

A range is a row as a lookup prints it: id, start, end, generation, nodes, lease node and lease
number. Its first five are its descriptor. What the ranges hold is one store, as no move of a range
changes what stands at a key.
"""
from bisect import bisect_left, bisect_right

from plain_store import BOUND, Failure, Turn, add_write, cut, kind_of

ROWS, TOUCHED = 9, 8
MOVES = {"split": ("key",), "merge": ("key",), "lease": ("key", "node"), "move": ("key", "nodes"),
         "stale": ("key", "back")}


def holds(row, start, end):
    """Whether the row's span holds the one from start to end."""
    return row[1] <= start and end <= row[2]


def contains(row, key, direction):
    """Whether the row's span contains the key, its end in place of its start in reverse."""
    return row[1] <= key < row[2] if direction == "forward" else row[1] < key <= row[2]


def overlap(one, two):
    """Whether two rows have a key in common."""
    return one[1] < two[2] and two[1] < one[2]


def hull(items):
    """The least span that holds those of all items, or rows."""
    return min(item[1] for item in items), max(item[2] for item in items)


class World:
    """Ranges by rising start, all descriptors so far, the armed ones, and the store."""

    def __init__(self, cluster):
        ranges = cluster["ranges"]
        ends = [one["start"] for one in ranges[1:]] + [BOUND]
        self.ranges = [[number, one["start"], end, 1, one["nodes"], one["lease"], 1]
                       for number, (one, end) in enumerate(zip(ranges, ends), 1)]
        self.descriptors = [row[:5] for row in self.ranges]
        self.greatest, self.armed, self.store = len(ranges), [], {}

    def place(self, key, direction="forward"):
        """The place of the range that contains the key."""
        starts = [row[1] for row in self.ranges]
        return (bisect_right if direction == "forward" else bisect_left)(starts, key) - 1

    def put(self, place, count, rows):
        """Puts rows with new descriptors in place of so many ranges."""
        self.ranges[place:place + count] = rows
        self.descriptors += [row[:5] for row in rows]

    def event(self, event):
        """Makes an event of a line or of a block."""
        op = event["op"]
        if op == "write":
            add_write(self.store, event)
        else:
            getattr(self, op)(*(event[name] for name in MOVES[op]))

    def split(self, key):
        place = self.place(key)
        number, start, end, generation, *rest = self.ranges[place]
        if start < key:
            self.greatest += 1
            self.put(place, 1, [[number, start, key, generation + 1, *rest],
                                [self.greatest, key, end, generation + 1, *rest]])

    def merge(self, key):
        place = self.place(key)
        if place + 1 < len(self.ranges):
            left, right = self.ranges[place:place + 2]
            generation = max(left[3], right[3]) + 1
            self.put(place, 2, [[left[0], left[1], right[2], generation, *left[4:]]])

    def lease(self, key, node):
        place = self.place(key)
        row = self.ranges[place]
        if node in row[4] and node != row[5]:
            self.ranges[place] = row[:5] + [node, row[6] + 1]

    def move(self, key, nodes):
        place = self.place(key)
        *front, generation, old, node, number = self.ranges[place]
        if nodes != old:
            lease = [node, number] if node in nodes else [nodes[0], number + 1]
            self.put(place, 1, [[*front, generation + 1, nodes, *lease]])

    def stale(self, key, back):
        of_key = [one for one in self.descriptors if contains(one, key, "forward")]
        if back < len(of_key):
            self.armed.append(of_key[-1 - back])

    def lookup(self, key, direction):
        """The rows that answer a lookup; an armed descriptor is used up."""
        armed = next((one for one in self.armed if contains(one, key, direction)), None)
        if armed:
            self.armed.remove(armed)
            return [armed + [armed[4][0], 0]]
        place = self.place(key, direction)
        if direction == "forward":
            return self.ranges[place:place + ROWS]
        return self.ranges[max(0, place - ROWS + 1):place + 1][::-1]

    def deliver(self, node, number, items, requests, stamp, direction):
        """What a node answers a piece for a range; items are as printed, of these requests."""
        row = next((one for one in self.ranges if one[0] == number and node in one[4]), None)
        if not row:
            return "not_found"
        if node != row[5]:
            return {"lease": row[5:]}
        if all(holds(row, start, end) for _, start, end, _ in items):
            return self.serve(items, requests, stamp)
        touched = [one for one in self.ranges if overlap(one, [0, *hull(items)])]
        return {"mismatch": (touched if direction == "forward" else touched[::-1])[:TOUCHED]}

    def serve(self, items, requests, stamp):
        """Does the items in order, all of them or none, and then what they ask of the ranges."""
        turn = Turn(self.store, stamp)
        asked = [(pos, cut(requests[pos], start, end)) for pos, start, end, _ in items]
        try:
            replies = [turn.act(pos, one) for pos, one in asked]
        except Failure as failure:
            return {"failed": failure.args[0]}
        turn.keep()
        for _, one in asked:
            if kind_of(one) == "admin_split":
                self.split(one["admin_split"])
            elif kind_of(one) == "admin_lease":
                self.lease(*one["admin_lease"])
        return {"done": replies}
