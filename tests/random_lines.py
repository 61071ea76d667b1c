#!/usr/bin/env python3
"""Holds the program to the reference on random lines over hostile images, and prints what was seen.

random_lines.py [--scripts N] [--seed S] [-- PROGRAM WORD...]; the program is ./pageledger unless one is named.
Each script counts as one check. Every kind of answer must have been among the reference's.
"""

import argparse
import collections
import pathlib
import random
import re
import subprocess
import sys
import tempfile
import textwrap

import tally

sys.path.append(str(pathlib.Path(__file__).parent / "reference"))
import lines

IMAGES = 20  # in a script

# The kinds of failure, and where each was met: in stage 2 alone or in one of the stages of a walk.
FAILURES = [f"{kind} level {level}" for kind in ("TRANSLATION", "NOT_MODELLED", "WALK_ABORT") for level in range(4)]
FAILURES += [f"{kind} level {level}" for kind in ("ACCESS_FLAG", "PERMISSION") for level in (1, 2, 3)]
WHERE = ["stage2", "stage 1", "stage 2", "during 0", "during 1", "during 2", "during 3"]
# Where stage 2's root table is in RAM for the first descriptor of stage 1, it is for all that follows.
NEVER = [("WALK_ABORT level 0", where) for where in ("stage 2", "during 1", "during 2", "during 3")]

# What the other answers say.
OTHERS = [f"stage2 fetched {n}" for n in (2, 3, 4)] + [f"walk fetched {n}" for n in range(8, 25)]
OTHERS += ["stage2 REFUSED", "walk REFUSED", "walk with nothing fetched"]
OTHERS += ["setup 0", "setup 4", "word ok", "word refused", "peek", "peek refused"]
OTHERS += [f"{name} 5" for name in ("give", "map", "unmap", "share", "unshare", "take", "destroy", "translate")]
OTHERS += ["create 0", "create 1", "destroy 0", "invalidated 0", "invalidated 1", "guest none", "guest 1"]
OTHERS += ["frame free", "frame monitor", "frame 4"]
OTHERS += ["ledger", "error: setup needed"]
OTHERS += [f"error: {why}" for why in ("unknown command", "number expected", "number too large", "line too long")]
OTHERS += [f"error: {why}" for why in ("too many words", "too few words", "access is r, w or x", "level is el0 or el1")]
OTHERS += ["error: not text"]


def kind_of(line, answer):
    """One of the failures with where it was met, or one of the others."""
    if answer.startswith("error: "):
        return answer
    command = line.split()[0].decode()
    if command == "ledger":
        return command
    if answer == "TRANSLATION stage 1 level 0 fetched 0":
        return "walk with nothing fetched"
    failure = re.fullmatch(r"(\w+) (stage \d) (level \d)(?: during stage 1 level (\d))? fetched \d+", answer)
    if failure:
        kind, stage, level, during = failure.groups()
        where = command if command == "stage2" else f"during {during}" if during else stage
        return f"{kind} {level}", where
    return f"{command} {re.sub('^0x[0-9a-f]+ ?', '', answer)}".rstrip()


def show(seen):
    """Prints how often each kind was seen, and returns those that never were."""
    print(f"{'':22}" + "".join(f"{where:>9}" for where in WHERE))
    for failure in FAILURES:
        cells = ["-" if (failure, where) in NEVER else seen[failure, where] for where in WHERE]
        print(f"{failure:22}" + "".join(f"{cell:>9}" for cell in cells))
    print(textwrap.fill("; ".join(f"{other}: {seen[other]}" for other in OTHERS), 100))
    wanted = [(failure, where) for failure in FAILURES for where in WHERE if (failure, where) not in NEVER]
    return [kind for kind in wanted + OTHERS if seen[kind] == 0]


def check(program, file, script):
    """Runs the program over a script, which stays where the answers differ from the reference's."""
    file.write_bytes(b"\n".join(script.lines) + b"\n")
    expected = "".join(f"{answer}\n" for _, answer in script.answers).encode()
    problem = tally.problem([*program, str(file)], expected, stdin=subprocess.DEVNULL)
    if problem is None:
        file.unlink()
    return problem


def main():
    words = argparse.ArgumentParser(description=__doc__)
    words.add_argument("--scripts", type=int, default=8)
    words.add_argument("--seed", type=int, default=1)
    words.add_argument("program", nargs="*", default=["./pageledger"])
    words = words.parse_args()
    count, seen = tally.Tally(), collections.Counter()
    folder = pathlib.Path(tempfile.mkdtemp(prefix="pageledger-"))
    for number in range(words.scripts):
        source, script = random.Random(f"{words.seed} {number}"), lines.Script()
        for _ in range(IMAGES):
            script.add_image(source)
        seen.update(kind_of(line, answer) for line, answer in script.answers)
        file = folder / f"seed-{words.seed}-{number}.script"
        count.check(file, check(words.program, file, script))
    missing = show(seen)
    count.demand("every kind of answer", f"never seen: {missing}" if missing else None)
    print(f"seed {words.seed}, {words.scripts} scripts, {sum(seen.values())} answers")
    if not any(folder.iterdir()):
        folder.rmdir()
    count.finish()


main()
