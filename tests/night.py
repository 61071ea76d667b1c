#!/usr/bin/env python3
"""night.py [--seed S] [--place P] [--minutes M]: the tests of host/ beside the second implementation, for as long as there is time.

A run is rounds, counted from 0; the round of place P has the seed S + P. Each has 3,000,000 walks, 300,000 operations, and 20,000
operations watched store by store (x86-64 only). After each round it prints what was done, how fast, and how often each refusal has come.
It ends at a failure, after the round in which M minutes have passed, or where it is interrupted (Ctrl-C); its last line says how to go
on. Wants cc, cargo, and out/ as ./build writes it.
"""

import argparse
import collections
import os
import pathlib
import platform
import re
import signal
import subprocess
import sys
import time

HERE = pathlib.Path(__file__).resolve().parent.parent
# The tests, with what each counts, the setting that says how many, and how many a round has.
TESTS = {"walks": ("walks", "PAGELEDGER_WALKS", 3_000_000), "operations": ("operations", "PAGELEDGER_OPERATIONS", 300_000)}
if platform.machine() == "x86_64":
    TESTS["stores"] = ("watched operations", "PAGELEDGER_WATCHED", 20_000)


class Failed(Exception):
    """What a test printed that did not end well."""


def cargo(test, *words, **settings):
    command = ["cargo", "test", "--quiet", "--manifest-path", "host/Cargo.toml", "--test", test, *words]
    settings = {**os.environ, "CARGO_TARGET_DIR": str(HERE / "target/host"), "CARGO_NET_OFFLINE": "true", **settings}
    return subprocess.run(command, cwd=HERE, stdout=subprocess.PIPE, stderr=subprocess.STDOUT, text=True, env=settings)


def build():
    for test in TESTS:
        built = cargo(test, "--no-run")
        if built.returncode:
            raise Failed(f"{test} does not build:\n{built.stdout[-3000:]}")


def run(test, seed):
    """Runs one test: how many it did, how often each thing was seen, and how many seconds it took."""
    _, setting, many = TESTS[test]
    begun = time.monotonic()
    ran = cargo(test, "--", "--exact", test, "--nocapture", **{"PAGELEDGER_SEED": str(seed), setting: str(many)})
    done = re.search(rf"^seed {seed}: (\d+) ", ran.stdout, re.M)
    if ran.returncode or not done:
        raise Failed(f"{test} with PAGELEDGER_SEED={seed} ended with status {ran.returncode}:\n{ran.stdout[-3000:]}")
    seen = collections.Counter({name: int(number) for number, name in re.findall(r"^ *(\d+) ([a-z].*)$", ran.stdout, re.M)})
    return int(done[1]), seen, time.monotonic() - begun


class Night:
    def __init__(self):
        self.done, self.seconds = collections.Counter(), collections.Counter()
        self.walks, self.operations = collections.Counter(), collections.Counter()

    def round(self, seed):
        """All tests with one seed; one that is cut off counts for nothing."""
        for test, (done, seen, seconds) in {test: run(test, seed) for test in TESTS}.items():
            self.done[test] += done
            self.seconds[test] += seconds
            (self.walks if test == "walks" else self.operations).update(seen)

    def refusals(self):
        """How often each answer of an operation has come, by its number."""
        found = collections.Counter()
        for name, count in self.operations.items():
            if answer := re.fullmatch(r"[a-z]+: (\d+)", name):
                found[int(answer[1])] += count
        return found

    def progress(self):
        rates = [f"{self.done[test]:,} {TESTS[test][0]} ({self.done[test] / self.seconds[test]:,.0f} a second)" for test in self.done]
        answers = ", ".join(f"{number}: {count:,}" for number, count in sorted(self.refusals().items()))
        return f"{', '.join(rates)}\n  answers of operations: {answers}"

    def end(self):
        """What a page of figures wants."""
        rare = lambda seen: "{0[0]}, {0[1]:,} times".format(min(seen.items(), key=lambda item: item[1]))
        return (f"{len(self.walks)} kinds of answers of walks, the rarest {rare(self.walks)}; "
                f"{len(self.operations)} things seen of operations, the rarest {rare(self.operations)}")


def main():
    words = argparse.ArgumentParser(description=__doc__, formatter_class=argparse.RawDescriptionHelpFormatter)
    for name, otherwise in (("seed", 1), ("place", 0), ("minutes", 0)):
        words.add_argument(f"--{name}", type=int, default=otherwise)
    asked = words.parse_args()
    signal.signal(signal.SIGTERM, signal.default_int_handler)
    night, place, status = Night(), asked.place, 0
    try:
        build()
        begun = time.monotonic()
        while True:
            night.round(asked.seed + place)
            place += 1
            print(f"round {place - 1}: {night.progress()}", flush=True)
            if asked.minutes and time.monotonic() - begun >= 60 * asked.minutes:
                break
    except KeyboardInterrupt:
        print("stopped; the round that was begun is not counted")
    except Failed as failed:
        print(failed)
        status = 1
    if night.done:
        print(night.end())
    print(f"to go on: tests/night.py --seed {asked.seed} --place {place}")
    sys.exit(status)


main()
