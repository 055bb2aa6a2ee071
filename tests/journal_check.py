"""Checks what a program printed of a script: its journal by a world, its answers by a plain store.

A journal is legal where the world of the script answers each step so and each send is a piece of
its batch. An Ok answer is joined of the accepted pieces, and any other answer has its cause in the
journal. The first fault is raised.
"""
import json
from itertools import zip_longest

from plain_store import PlainStore, add_write, kind_of, must_see_one_state, numbers_of, parts_of, \
    span_of, span_of_all
from sender_habits import REFUSALS, Habits
from world import MOVES, World, contains, holds, hull

LOOK = {"dir", "key", "line", "look", "step"}
SEND = {"left", "line", "node", "piece", "range", "send", "step"}
END = 1_000_000


class Fault(Exception):
    """What is wrong with what was printed, as a text."""


def need(condition, fault):
    if not condition:
        raise Fault(fault)


def text_of(thing):
    """The thing as compact JSON with its names in order."""
    return json.dumps(thing, sort_keys=True, separators=(",", ":"), ensure_ascii=False)


def need_same(printed, wanted, what):
    """Needs equal texts, as for Python 1, 1.0 and True are the same."""
    if text_of(printed) != text_of(wanted):
        raise Fault(f"{what} {text_of(wanted)}")


class Rows:
    """The descriptors that the journal has shown so far, in lookups and mismatches."""

    def __init__(self):
        self.by_range, self.shown = {}, []

    def add(self, rows):
        for row in rows:
            known = self.by_range.setdefault(row[0], [])
            if row[:5] not in known:
                known.append(row[:5])
                self.shown.append(row[:5])

    def lead(self, send, spans):
        """Whether one of them leads to where a send went, with these spans inside its own."""
        return any(send["node"] in one[4] and all(holds(one, *span) for span in spans)
                   for one in self.by_range.get(send["range"], ()))


def name_of(step):
    """What a step was answered, by its name."""
    told = step.get("send", "rows")
    return told if isinstance(told, str) else next(iter(told))


class Course:
    """How far a batch is served: its parts, the one at hand, and the accepted items."""

    def __init__(self, line):
        self.line, self.requests = line, line["requests"]
        self.numbers, self.parts, self.place = numbers_of(self.requests), parts_of(self.requests), 0
        self.accepted = {position: [] for position in range(len(self.requests))}
        self.pieces = []
        self.whole = span_of_all(self.requests) if must_see_one_state(line) else None

    def is_done(self):
        return self.place == len(self.parts)

    def part(self):
        return self.parts[self.place]

    def direction(self, part=None):
        kinds = [kind_of(self.requests[position]) for position in part or self.part()]
        return "reverse" if "reverse_scan" in kinds else "forward"

    def first_key(self):
        """The key at which the part at hand begins, in its direction."""
        return span_of_all([self.requests[i] for i in self.part()])[self.direction() == "reverse"]

    def seek_key(self, items):
        """The key at which a piece of the part at hand begins, in its direction."""
        return hull(items)[self.direction() == "reverse"]

    def cut(self, start, end):
        """The items of the part at hand cut to a span."""
        spans = ((position, *span_of(self.requests[position])) for position in self.part())
        cut = ([position, max(start, one), min(end, two)] for position, one, two in spans)
        return [[*item, self.numbers[item[0]]] for item in cut if item[1] < item[2]]

    def is_left(self, key):
        """Whether the key, in the direction of the part at hand, is still to be served."""
        direction = self.direction()
        asked = (position for position in self.part()
                 if contains([0, *span_of(self.requests[position])], key, direction))
        return any(not any(contains(item, key, direction) for item, _ in self.accepted[position])
                   for position in asked)

    def check_piece(self, items):
        """Whether the items are the part's, cut, and ask for nothing that was served."""
        need(items, "a piece has no item")
        positions = [item[0] for item in items]
        need(positions == sorted(set(positions)), "the positions of a piece don't rise")
        for position, start, end, number in items:
            need(position in self.part(), "a piece has a request that isn't of the part at hand")
            need(number == self.numbers[position], "an item has another request's number")
            need(start < end and holds([0, *span_of(self.requests[position])], start, end),
                 "an item isn't its request, cut")
            need(all(end <= item[1] or item[2] <= start for item, _ in self.accepted[position]),
                 "a piece asks for keys that were served")

    def accept(self, items, replies):
        """Takes an accepted piece in; the next part is at hand where this one is served whole."""
        need(len(items) == len(replies), "not each item has a reply")
        self.pieces.append(items)
        for item, reply in zip(items, replies):
            self.accepted[item[0]].append((item, reply))
        served = all(self.is_served(position) for position in self.part())
        need(served or not self.whole, "a piece holds not all of a part that one range must serve")
        self.place += served

    def is_served(self, position):
        """Whether the accepted items at a position are a chain over its request's span."""
        start, end = span_of(self.requests[position])
        items = sorted(item for item, _ in self.accepted[position])
        return [item[1] for item in items] + [end] == [start] + [item[2] for item in items]

    def joined(self, position):
        """The reply of the accepted items at a position, joined in the order of its keys."""
        backward = kind_of(self.requests[position]) == "reverse_scan"
        pairs = sorted(self.accepted[position], key=lambda pair: pair[0][1], reverse=backward)
        replies = [reply for _, reply in pairs]
        if len(replies) == 1:
            return replies[0]
        name = "keys" if "keys" in replies[0] else "rows"
        listed = [thing for reply in replies for thing in reply[name]]
        return {"rows": listed} if name == "rows" else {"keys": listed, "num": len(listed)}


class Block:
    """A batch line with what was printed of it; its events are made while its steps are checked.

    So many of its sends were refused so far, and the last step was answered so.
    """

    def __init__(self, line, steps, answer):
        self.line, self.steps, self.answer = line, steps, answer
        self.events = line.get("events", [])
        self.course, self.made = Course(line), 0
        self.refused, self.last = 0, None

    def writes(self, last=END):
        """The writes by others, those before the steps up to a last one."""
        return [one for one in self.events if one["op"] == "write" and one["at"] <= last]

    def bring(self, world, last=END):
        """Makes the events that come before a step."""
        while self.made < len(self.events) and self.events[self.made]["at"] <= last:
            world.event(self.events[self.made])
            self.made += 1


class Journal:
    """Plays a script's lines with what was printed of them."""

    def __init__(self, cluster, budget, capacity):
        self.world, self.store, self.rows = World(cluster), PlainStore(), Rows()
        self.budget, self.habits = budget, Habits(capacity, budget)

    def line(self, line):
        """Makes a line that prints nothing, or a close."""
        op = line["op"]
        if op == "begin":
            self.store.begin(line["stamp"])
        elif op == "close":
            self.store.open = None
        elif op == "write":
            add_write(self.store.versions, line)
        if op == "write" or op in MOVES:
            self.world.event(line)
            self.habits.still = self.habits.still and op == "write"

    def batch(self, block):
        """Plays a block, judges its answer, and leaves world and store as they are after it."""
        away, armed = self.store.turned_away(block.line), len(self.world.armed)
        self.habits.begin(block, self.rows)
        if away:
            need_same(block.answer, away, "it is answered")
            need(not block.steps, "it makes a step")
        else:
            for number, step in enumerate(block.steps, 1):
                self.step(block, number, step)
            self.judge(block)
            fault = self.habits.batch_fault(block, self.world, self.rows, armed)
            need(not fault, fault)
        block.bring(self.world)
        for write in block.writes():
            add_write(self.store.versions, write)

    def step(self, block, number, step):
        """Whether the world answers this step so, and the sender may make it here."""
        try:
            need(step["step"] == number, "it has another number")
            need(not block.course.is_done(), "all is served already")
            need(block.last != "failed", "a piece has failed already")
            need(block.refused < self.budget, "the budget is used up already")
            block.bring(self.world, number)
            (self.lookup if "look" in step else self.send)(block, step)
        except Fault as fault:
            raise Fault(f"step {number}: {fault}") from None
        block.last = name_of(step)
        block.refused += block.last in REFUSALS
        self.habits.note(block, step, self.rows)

    def need_habit(self, course, step):
        """Needs that a sender would make this legal step; it isn't made yet."""
        fault = self.habits.step_fault(course, step)
        need(not fault, fault)

    def lookup(self, block, step):
        need(set(step) == LOOK, "a lookup has other members")
        key, direction = step["key"], step["dir"]
        need(direction == block.course.direction(), "a lookup goes another way than its part")
        need(block.course.is_left(key), "a lookup asks for a key that isn't to be served")
        self.need_habit(block.course, step)
        rows = self.world.lookup(key, direction)
        need_same(step["look"], rows, "a lookup is answered")
        self.rows.add(rows)

    def send(self, block, step):
        need(set(step) == SEND and step["left"] is None, "a send has other members")
        course, items = block.course, step["piece"]
        course.check_piece(items)
        spans = [item[1:3] for item in items] + ([course.whole] if course.whole else [])
        need(self.rows.lead(step, spans), "no row that was met leads there")
        self.need_habit(course, step)
        told = self.world.deliver(step["node"], step["range"], items, course.requests,
                                  self.store.stamp_of(block.line), course.direction())
        need_same(step["send"], told, "a send is answered")
        if "done" in told:
            course.accept(items, told["done"])
        elif "mismatch" in told:
            self.rows.add(told["mismatch"])

    def judge(self, block):
        """Whether the answer has its cause, and is the plain store's."""
        answer, course = block.answer, block.course
        if block.refused == self.budget or "retry_exhausted" in answer:
            need(block.refused == self.budget, f"of a budget of {self.budget} it is not used up")
            need_same(answer, {"retry_exhausted": {"lost": 0, "refused": block.refused}}, "it is")
            self.store.note(block.line, answer)
        elif "op_requires_txn" in answer:
            self.judge_route(course, block.steps, answer["op_requires_txn"])
        else:
            want, turn = self.store.asked(block.line, block.writes(len(block.steps)))
            need_same(answer, want, "the plain store answers")
            if "ok" in answer:
                need(course.is_done(), "not all is served")
                gathered = [course.joined(position) for position in course.accepted]
                need_same(answer["ok"], gathered, "the accepted pieces come to")
                turn.store = self.store.versions
                turn.keep()
            else:
                need(block.steps, "no send failed")
                need_same(block.steps[-1].get("send"), {"failed": answer}, "no send failed so:")

    def judge_route(self, course, steps, told):
        """Whether a route to the first key of the part at hand may show that no range holds all."""
        need(set(told) == {"desc"}, "the answer has other members")
        one = told["desc"]
        need(course.whole and not course.is_done(), "it needn't lie in one range, or is served")
        need(one in self.rows.by_range.get(one[0], []), "the journal has no such descriptor")
        need(contains(one, course.first_key(), course.direction()),
             "the descriptor isn't of the part's first key")
        need(not holds(one, *course.whole), "the descriptor holds the whole batch")
        if steps and "look" in steps[-1]:
            need(one == steps[-1]["look"][0][:5], "the lookup found another descriptor")


def blocks_of(script, objects):
    """The number of each line that prints, with its steps and the object that ends it."""
    printing = [n for n, line in enumerate(script, 1) if line and line["op"] in ("batch", "close")]
    steps, ends = [], []
    for thing in objects:
        steps.append(thing)
        if "step" not in thing:
            ends.append(steps)
            steps = []
    need(not steps, "the output ends with a step")
    for number, things in zip_longest(printing, ends):
        need(number and things, f"lines {printing[len(ends):]} print nothing, or more is printed")
        need(all(thing["line"] == number for thing in things), f"line {number} isn't next")
        yield number, things[:-1], things[-1]


def first_fault(script, objects, budget, capacity):
    """What is wrong first with the objects printed for a script, as a text, or None."""
    number = 0
    try:
        printed = {number: things for number, *things in blocks_of(script, objects)}
        journal = Journal(script[0], budget, capacity)
        for number, line in enumerate(script, 1):
            if not line:
                continue
            if line["op"] == "batch":
                steps, end = printed[number]
                need(set(end) == {"answer", "line"}, "an answer has other members")
                journal.batch(Block(line, steps, end["answer"]))
            else:
                journal.line(line)
            if line["op"] == "close":
                need_same(printed[number], [[], {"close": "aborted", "line": number}], "it prints")
    except Fault as fault:
        return f"line {number}: {fault}"
    except (TypeError, KeyError, IndexError, AttributeError, ValueError) as fault:
        return f"line {number}: what is printed has another form ({fault!r})"
    return None
