#!/usr/bin/env python3
"""Times the program on scripts of rising length: python3 tests/measure.py PROGRAM WORD..

For each sort of script it prints the seconds of processor time and the largest memory at three lengths, so that it can
be seen that a line costs about the same at the end of a script as at its beginning, also where ranges move all the
time, and that a scan costs in proportion to its ranges. Nothing is tested here.

python3 tests/measure.py --cache crates/ds_bench/out/ds_bench times a call of the cache instead, in a small and in a
large one: calls that go from range to range, sixteen at a time, as batches do, and calls at random, each of which finds
none of what it touches in the processor's own memory. It ends with status 1 where the first take more than 2.5 times as
long in the large cache.

python3 tests/measure.py --cluster crates/ds_sim_bench/out/ds_sim_bench times an event or a lookup of the simulated
cluster alone, over 1, 100 and 10,000 ranges.
"""

import json
import os
import random
import subprocess
import sys
import tempfile

LENGTHS = [5_000, 10_000, 19_998]
CACHE_SIZES = [1_000, 65_536]
CACHE_CALLS = 1_000_000
CACHE_FACTOR = 2.5
CLUSTER_SIZES = [1, 100, 10_000]
CLUSTER_CALLS = 100_000


def cluster(ranges):
    starts = [""] + [f"k{8 * i:05}" for i in range(1, ranges)]
    rows = [{"start": start, "nodes": [1, 2, 3], "lease": 1 + i % 3} for i, start in enumerate(starts)]
    return {"op": "cluster", "nodes": 3, "ranges": rows}


def batch(stamp, *requests):
    return {"op": "batch", "stamp": stamp, "requests": list(requests)}


def puts_of_one_key(length):
    return [cluster(1)] + [batch(i + 1, {"put": ["a", i]}) for i in range(length)]


def old_reads_of_one_key(length):
    half = length // 2
    writes = [{"op": "write", "key": "a", "stamp": i + 1, "value": i} for i in range(half)]
    return [cluster(1)] + writes + [batch(1 + 7919 * i % half, {"get": "a"}) for i in range(half)]


def transactions_over_many_keys(length):
    third = length // 3
    writes = [{"op": "write", "key": f"k{i:06}", "stamp": 1, "value": i} for i in range(third)]
    return [cluster(1)] + writes + third * [{"op": "begin", "stamp": 10, "key": "a"}, {"op": "close"}]


def all_forms_over_many_ranges(length):
    pick = random.Random(1)
    lines = [cluster(1024)]
    while len(lines) < length:
        key, stamp = f"k{pick.randrange(8192):05}", len(lines)
        lines += pick.choice([
            [{"op": "write", "key": key, "stamp": stamp, "value": stamp}],
            [batch(stamp, {"put": [key, stamp]}, {"increment": [key + "x", 1]})],
            [batch(stamp, {"get": key})],
            [{"op": "begin", "stamp": stamp, "key": key},
             {"op": "batch", "txn": True, "requests": [{"scan": [key, key + "z"]}]}, {"op": "close"}],
        ])
    return lines


def moves_on_every_second_line(length):
    """A range splits, merges or moves, or an old descriptor is armed; then a batch reads or writes."""
    pick = random.Random(2)
    lines = [cluster(1024)]
    while len(lines) < length:
        key, node = f"k{pick.randrange(8192):05}", pick.randrange(3) + 1
        other, stamp = f"k{pick.randrange(8192):05}", len(lines)
        lines += [pick.choice([
            {"op": "split", "key": key + "m"},
            {"op": "merge", "key": key},
            {"op": "lease", "key": key, "node": node},
            {"op": "move", "key": key, "nodes": pick.sample([1, 2, 3], 2)},
            {"op": "stale", "key": key, "back": 1},
        ]), pick.choice([
            batch(stamp, {"put": [other, stamp]}),
            batch(stamp, {"get": other}),
            dict(batch(stamp, {"scan": [other, other[:-2] + "99z"]}), consistent=False),
            dict(batch(stamp, {"reverse_scan": [other, other[:-2] + "99z"]}), consistent=False),
        ])]
    return lines[:length]


def scans_of_thousand_ranges(length):
    """The same scan again and again over a thousand ranges of one row each, so many ranges in all."""
    rows = [{"op": "write", "key": f"k{8 * i:05}a", "stamp": 1, "value": i} for i in range(1_000)]
    scan = dict(batch(10, {"scan": ["k", "l"]}), consistent=False)
    return [cluster(1_000)] + rows + length // 1_000 * [scan]


SORTS = {sort.__name__: sort for sort in [
    puts_of_one_key, old_reads_of_one_key, transactions_over_many_keys, all_forms_over_many_ranges,
    moves_on_every_second_line, scans_of_thousand_ranges,
]}
UNITS = {"scans_of_thousand_ranges": "ranges"}


def measure(command, sort, length):
    """Each script is made by a process of its own, as the memory of this one counts as the program's too."""
    with tempfile.TemporaryFile("w+") as script:
        subprocess.run([sys.executable, __file__, "--script", sort, str(length)], stdout=script, check=True)
        script.seek(0)
        child = subprocess.Popen(command, stdin=script, stdout=subprocess.DEVNULL)
        _, status, usage = os.wait4(child.pid, 0)
    return usage.ru_utime + usage.ru_stime, usage.ru_maxrss // 1024, os.waitstatus_to_exitcode(status)


def seconds(command):
    child = subprocess.Popen(command, stdout=subprocess.DEVNULL)
    _, status, usage = os.wait4(child.pid, 0)
    if os.waitstatus_to_exitcode(status) != 0:
        sys.exit(f"{command} failed")
    return usage.ru_utime + usage.ru_stime


def time_of_call(words, calls):
    """What one of so many calls takes beside what comes before the first, the least of three."""
    took = [min(seconds(words + [str(count)]) for _ in range(3)) for count in [0, calls]]
    return (took[1] - took[0]) / calls


def measure_cluster(program):
    for size in CLUSTER_SIZES:
        time = time_of_call([program, str(size)], CLUSTER_CALLS)
        print(f"cluster of {size:6} ranges: {time * 1e6:5.2f} microseconds a step")
    sys.exit()


def cache_factor(program, sort):
    """How many times as long a call takes in the larger cache."""
    times = []
    for size in CACHE_SIZES:
        times.append(time_of_call([program, sort, str(size)], CACHE_CALLS))
        print(f"  cache of {size:6} entries: {times[-1] * 1e6:5.2f} microseconds a call")
    print(f"  {times[1] / times[0]:.2f} times as long in the larger one")
    return times[1] / times[0]


def measure_cache(program):
    print("calls at random")
    cache_factor(program, "cache")
    print(f"calls from range to range, of which at most {CACHE_FACTOR} times is wanted")
    sys.exit(cache_factor(program, "walk") > CACHE_FACTOR)


def main():
    if sys.argv[1] == "--cache":
        measure_cache(sys.argv[2])
    if sys.argv[1] == "--cluster":
        measure_cluster(sys.argv[2])
    if sys.argv[1] == "--script":
        print("\n".join(json.dumps(line) for line in SORTS[sys.argv[2]](int(sys.argv[3]))))
        return
    for sort in SORTS:
        print(sort.replace("_", " "))
        for length in LENGTHS:
            seconds, memory, status = measure(sys.argv[1:], sort, length)
            unit = UNITS.get(sort, "lines")
            print(f"  {length:6} {unit}: {seconds:5.2f} s, {memory:4} MB, status {status}")


if __name__ == "__main__":
    main()
