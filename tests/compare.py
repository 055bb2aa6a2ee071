#!/usr/bin/env python3
"""Replays random scripts with a program and compares its answers with those of a plain store.

    compare.py [--count N] [--seed S] PROGRAM WORD..
    compare.py --script FILE PROGRAM WORD..

Script number i is made from the seed S + i alone, so `--count 1 --seed THAT` makes it again; with
--script it is the file's, whose forms must be among those that are made. What is printed is checked
step by step too (journal_check.py). Of the program's words --budget and --cache are heeded.
"""
import argparse
import json
import subprocess
import sys

from journal_check import first_fault, text_of
from script_maker import Maker

BUDGET, CACHE = 100_000, 1_024


def lines_of(output):
    """The printed lines, and what is no compact JSON with its names in order, as texts."""
    objects = []
    for line in output.split("\n")[:-1]:
        try:
            objects.append(json.loads(line))
        except ValueError:
            return [], [f"no JSON: {line[:300]}"]
        if not isinstance(objects[-1], dict) or text_of(objects[-1]) != line:
            return [], [f"no compact object: {line[:300]}"]
    return objects, [] if output.endswith("\n") or not output else ["the last line has no end"]


def differences(script, unbuilt, status, output, settings):
    """What is wrong with the program's output, as texts."""
    if status != bool(unbuilt):
        return [f"status {status}", output[:300]]
    objects, found = lines_of(output)
    if unbuilt and not found:
        want = {"fault": "shape", "line": unbuilt}
        return [f"not {text_of(want)}"] if objects != [want] else []
    fault = not found and first_fault(script, objects, **settings)
    return found + [fault] * bool(fault)


def script_text(script, seed):
    """The bytes of a script; None is a blank line."""
    return "".join((json.dumps(line, ensure_ascii=seed % 2 == 0) if line else " \t") + "\n"
                   for line in script).encode()


def script_of(path):
    """The lines of a file, as a maker gives them."""
    with open(path, encoding="utf-8") as lines:
        return [json.loads(line) if line.strip() else None for line in lines], None


def compare(seed, made, command, settings):
    """Replays one script; whether its output differs. Differences go to stderr."""
    script, unbuilt = made
    text = script_text(script, seed)
    done = subprocess.run(command, input=text, stdout=subprocess.PIPE, check=False)
    output = done.stdout.decode(errors="replace")
    found = differences(script, unbuilt, done.returncode, output, settings)
    if found:
        shown = text.decode() if len(script) < 1_000 else ""
        print(f"seed {seed}\n" + "\n".join(found) + "\n" + shown, file=sys.stderr)
    return bool(found)


def settings_of(words):
    """The budget and the capacity of the sender's cache, by the program's words."""
    reader = argparse.ArgumentParser(add_help=False, allow_abbrev=False)
    reader.add_argument("--budget", type=int, default=BUDGET)
    reader.add_argument("--cache", type=int, default=CACHE)
    known, _ = reader.parse_known_args(words)
    return {"budget": known.budget, "capacity": known.cache}


def main():
    reader = argparse.ArgumentParser(description="compares a program with a plain store")
    reader.add_argument("--count", type=int, default=200)
    reader.add_argument("--seed", type=int, default=1)
    reader.add_argument("--script")
    reader.add_argument("command", nargs=argparse.REMAINDER)
    words = reader.parse_args()
    settings = settings_of(words.command)
    seeds = range(words.seed, words.seed + (1 if words.script else words.count))
    made = ((seed, script_of(words.script) if words.script else Maker(seed).script())
            for seed in seeds)
    differ = sum(compare(*one, words.command, settings) for one in made)
    print(f"{len(seeds)} scripts, {differ} differences")
    return 1 if differ else 0


if __name__ == "__main__":
    sys.exit(main())
