"""A plain store: it has no ranges, and is asked each batch whole.

It has for each key its values by stamp, where None is a deletion. With it stand the rules that know
no ranges either: what a request's span is, which requests go together, and what a batch may hold.
"""

BOUND = "\u00ff\u00ff"
LOW, HIGH = -(2 ** 63), 2 ** 63 - 1
READS = ("get", "scan", "reverse_scan")
WRITES = ("put", "cput", "init_put", "increment", "delete", "delete_range")
ALONE = ("admin_split", "admin_lease")
RANGE_KINDS = ("scan", "reverse_scan", "delete_range")


def kind_of(request):
    return next(iter(request))


def span_of(request):
    """The first key of a request and the key at which it ends."""
    kind = kind_of(request)
    args = request[kind]
    if kind in RANGE_KINDS:
        return tuple(args)
    key = args if isinstance(args, str) else args["key"] if kind == "cput" else args[0]
    return key, key + "\0"


def span_of_all(requests):
    """The least span that holds those of all requests."""
    starts, ends = zip(*map(span_of, requests))
    return min(starts), max(ends)


def cut(request, start, end):
    """The request on a span inside its own; a point has no span but its own."""
    kind = kind_of(request)
    return {kind: [start, end]} if kind in RANGE_KINDS else request


def are_compatible(one, two):
    """Whether two kinds may stand in one part."""
    if one in ALONE or two in ALONE or (one in WRITES) != (two in WRITES):
        return False
    in_range = [kind for kind in (one, two) if kind in RANGE_KINDS]
    return len({kind == "reverse_scan" for kind in in_range}) < 2


def parts_of(requests):
    """The parts of a batch, each the list of its requests' positions."""
    parts, kinds = [], set()
    for position, kind in enumerate(map(kind_of, requests)):
        if parts and all(are_compatible(kind, other) for other in kinds):
            parts[-1].append(position)
            kinds.add(kind)
        else:
            parts.append([position])
            kinds = {kind}
    return parts


def numbers_of(requests):
    """The number of each request: a write has the next one from 1, any other the last one's."""
    numbers, last = [], 0
    for request in requests:
        last += kind_of(request) in WRITES
        numbers.append(last)
    return numbers


def must_see_one_state(line):
    """Whether one range must hold the batch."""
    kinds = map(kind_of, line["requests"])
    consistent = line.get("consistent", True)
    return consistent and "stamp" in line and any(kind not in ALONE for kind in kinds)


def illegal(line):
    """The code of what forbids the batch, or None; the least code goes first."""
    requests, consistent = line["requests"], line.get("consistent", True)
    bad = [i for i, (start, end) in enumerate(map(span_of, requests))
           if start >= end or start == BOUND]
    unread = [i for i, request in enumerate(requests) if kind_of(request) not in READS]
    if not 1 <= len(requests) <= 256:
        return {"code": 2 if requests else 1}
    if bad:
        return {"code": 3, "i": bad[0]}
    if not consistent and line.get("txn"):
        return {"code": 6}
    if not consistent and unread:
        return {"code": 7, "i": unread[0]}
    return {"code": 11} if "stamp" in line and unread and len(parts_of(requests)) > 1 else None


class Failure(Exception):
    """What kept a batch from being done, as the answer tells it."""


class Turn:
    """Requests at one stamp: what they wrote so far stands beside the store until it is kept."""

    def __init__(self, store, stamp):
        self.store, self.stamp, self.own = store, stamp, {}

    def value(self, key):
        stamps = [s for s in self.store.get(key, {}) if s <= self.stamp]
        return self.own.get(key, self.store[key][max(stamps)] if stamps else None)

    def rows(self, start, end):
        keys = sorted(k for k in {**self.store, **self.own} if start <= k < end)
        return [[k, self.value(k)] for k in keys if self.value(k) is not None]

    def write(self, i, key, value):
        newest = max(self.store.get(key, {0: None}))
        if key not in self.own and newest >= self.stamp:
            raise Failure({"write_too_old": {"i": i, "key": key, "stamp": newest}})
        self.own[key] = value
        return {}

    def act(self, i, request):
        """Does the request at place i and gives its reply."""
        kind = kind_of(request)
        return getattr(self, kind)(i, request[kind])

    def get(self, _, key):
        return {"value": self.value(key)}

    def scan(self, _, span):
        return {"rows": self.rows(*span)}

    def reverse_scan(self, _, span):
        return {"rows": self.rows(*span)[::-1]}

    def put(self, i, args):
        return self.write(i, *args)

    def delete(self, i, key):
        return self.write(i, key, None)

    def put_over(self, i, key, value, allowed):
        """Writes the value where the one seen is among those allowed."""
        seen = self.value(key)
        if seen not in allowed:
            raise Failure({"condition_failed": {"actual": seen, "i": i}})
        return self.write(i, key, value)

    def cput(self, i, args):
        allowed = [args["expect"]] + [None] * args.get("allow_absent", False)
        return self.put_over(i, args["key"], args["value"], allowed)

    def init_put(self, i, args):
        return self.put_over(i, *args, [None, args[1]])

    def increment(self, i, args):
        seen = self.value(args[0])
        if isinstance(seen, str):
            raise Failure({"not_integer": {"i": i}})
        total = (seen or 0) + args[1]
        if not LOW <= total <= HIGH:
            raise Failure({"overflow": {"i": i}})
        return self.write(i, args[0], total) or {"value": total}

    def delete_range(self, i, span):
        keys = [key for key, _ in self.rows(*span)]
        for key in keys:
            self.write(i, key, None)
        return {"keys": keys, "num": len(keys)}

    def admin_split(self, *_):
        return {}

    admin_lease = admin_split

    def keep(self):
        for key, value in self.own.items():
            self.store.setdefault(key, {})[self.stamp] = value


def add_write(store, write):
    """A write by another client: a second one of a key at one stamp does nothing."""
    store.setdefault(write["key"], {}).setdefault(write["stamp"], write["value"])


class PlainStore:
    """The store with its open transaction: its stamp, its batches so far, the first failed one."""

    def __init__(self):
        self.versions, self.open, self.batches, self.failed = {}, None, 0, None

    def begin(self, stamp):
        self.open, self.batches, self.failed = stamp, 0, None

    def stamp_of(self, line):
        return line.get("stamp", self.open)

    def turned_away(self, line):
        """The answer of a batch that isn't asked at all, or None."""
        self.batches += "txn" in line
        code = illegal(line)
        if code:
            return {"illegal": code}
        if "txn" in line and self.failed:
            return {"must_roll_back": {"since": self.failed}}
        return None

    def asked(self, line, writes=()):
        """The answer to the whole batch where these writes by others came first, and its turn."""
        store = self.versions
        if writes:
            store = {key: dict(values) for key, values in store.items()}
        for write in writes:
            add_write(store, write)
        turn = Turn(store, self.stamp_of(line))
        try:
            return {"ok": [turn.act(i, one) for i, one in enumerate(line["requests"])]}, turn
        except Failure as failure:
            return failure.args[0], turn

    def note(self, line, answer):
        """Notes what became of a batch that was asked, and isn't answered Ok."""
        if "txn" in line and "ok" not in answer and not self.failed:
            self.failed = self.batches
