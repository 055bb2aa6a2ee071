#!/usr/bin/env python3
"""What a run of the gate costs, crate by crate.

    rt ci | tests/gate.py --stamp     puts the time before each line, and ends with lines of the
                                      processor seconds of each check; rt must-fail NAME and
                                      rt check --test may stand in the place of rt ci
    tests/gate.py LOG                 prints a table of such a log: what the code, the tests and the
                                      edits of each crate cost, with the slowest edit of each

The seconds are those of the checks' own processes, read once a second from /proc: what they took
since the last reading is lost. Checks run side by side, so the hours between lines say less.
"""

import os
import re
import sys
import threading
import time

TICKS = os.sysconf("SC_CLK_TCK")
COST = re.compile(r"cost: (\w+) (code|tests|edits) (\d+) (\d+\.\d)$")
EDIT = re.compile(r"rt: must-fail (\w+)/(\S+)\.edit: (.*)")


def read(path):
    try:
        with open(path, "rb") as it:
            return it.read()
    except OSError:
        return b""


def checks_below(top):
    """Yields each check that runs below a process: its number, crate, kind and processor seconds."""
    stats = {}
    for name in filter(str.isdigit, os.listdir("/proc")):
        fields = read(f"/proc/{name}/stat").rpartition(b")")[2].split()
        if fields:
            stats[int(name)] = int(fields[1]), (int(fields[11]) + int(fields[12])) / TICKS
    for number, (above, seconds) in stats.items():
        words = read(f"/proc/{number}/cmdline").decode(errors="replace").split("\0")
        if "--crate-name" not in words:
            continue
        while above in stats and above != top:
            above = stats[above][0]
        if above == top:
            try:
                is_edit = "rt-edit-" in os.readlink(f"/proc/{number}/cwd")
            except OSError:
                continue
            kind = "edits" if is_edit else "tests" if "--test" in words else "code"
            yield number, words[words.index("--crate-name") + 1], kind, seconds


def watch(top, found, ended):
    while not ended.wait(1):
        for number, crate, kind, seconds in checks_below(top):
            found[number, crate, kind] = seconds


def stamp():
    found, ended = {}, threading.Event()
    watcher = threading.Thread(target=watch, args=(os.getppid(), found, ended))
    watcher.start()
    for line in sys.stdin:
        print(time.strftime("%H:%M:%S"), line, end="", flush=True)
    ended.set()
    watcher.join()
    counts = {}
    for (_, crate, kind), seconds in found.items():
        counts[crate, kind] = counts.get((crate, kind), 0) + 1
        print(time.strftime("%H:%M:%S"), f"cost: {crate} {kind} {counts[crate, kind]} {seconds:.1f}")


def report(log):
    costs, edits, unread = {}, {}, []
    with open(log, encoding="utf-8", errors="replace") as lines:
        for line in lines:
            text = re.sub(r"^\d\d:\d\d:\d\d ", "", line.rstrip("\n"))
            cost, edit = COST.match(text), EDIT.match(text)
            if cost:
                costs.setdefault(cost[1], {}).setdefault(cost[2], []).append(float(cost[4]))
            elif edit:
                edits.setdefault(edit[1], []).append(edit[2])
                unread += [f"{edit[1]}/{edit[2]}: {edit[3]}"] * (not edit[3].startswith("refused"))
    print(f"{'crate':<14}{'code':>7}{'tests':>7}{'edits':>7}  processor seconds; the slowest edit but for the first")
    sums = {"code": 0.0, "tests": 0.0, "edits": 0.0}
    for crate, kinds in costs.items():
        for kind, seconds in kinds.items():
            sums[kind] += sum(seconds)
        # The first edit pays for the whole crate, and the others go over its work.
        later = list(zip(kinds.get("edits", []), edits.get(crate, [])))[1:]
        slowest = max(later, default=None)
        said = f"  {slowest[1]} {slowest[0]:.0f}" if slowest else ""
        print(f"{crate:<14}" + "".join(f"{sum(kinds.get(it, [])):>7.0f}" for it in sums) + said)
    print(f"{'all':<14}" + "".join(f"{it:>7.0f}" for it in sums.values()))
    for it in unread:
        print(f"not refused: {it}")


if __name__ == "__main__":
    if sys.argv[1:] == ["--stamp"]:
        stamp()
    elif len(sys.argv) == 2 and not sys.argv[1].startswith("-"):
        report(sys.argv[1])
    else:
        sys.exit(__doc__)
