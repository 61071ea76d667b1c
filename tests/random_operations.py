#!/usr/bin/env python3
"""Holds the program to the reference on random operations of document 03, and prints which answers were seen.

random_operations.py [--long] [--seed S] [-- PROGRAM WORD...]; the program is ./pageledger unless one is named.
The whole ledger, the guests and some translations are compared after each operation. Which free frame becomes a
table is the program's choice, and the reference follows it: its ledger says which frames were taken, which must
have been free and as many as document 03 says. Each script counts as one check, and so does that each refusal
which document 03 lists for an operation was seen.
"""

import argparse
import collections
import pathlib
import random
import re
import subprocess
import sys
import tempfile

import tally

sys.path.append(str(pathlib.Path(__file__).parent / "reference"))
import operations
import script
from walk import FRAME

MACHINES = 26  # in a script
SCRIPTS, LONG = 8, 200
LEAST = 20000  # operations

# Document 03, section 3: the refusals of each operation, in order
REFUSALS = {
    "create": (1, 2, 3),
    "give": (5, 4, 6),
    "map": (5, 14, 7, 8, 4, 9, 10, 3),
    "unmap": (5, 7, 11),
    "share": (5, 12, 4, 9, 13, 14),
    "unshare": (5, 4, 9, 13, 14),
    "take": (5, 4, 9, 13),
    "destroy": (5, 13),
    "invalidated": (1,),
}


class Follower:
    """The reference with the program's choice of frames.

    A map that takes several shows by its words which became which table, where the script peeks at them. Where it
    doesn't, these tables' own words are not compared: they are `unsure`.
    """

    def __init__(self):
        self.session = script.Session(self.choose)
        self.taken, self.words, self.guessed, self.unsure = set(), {}, False, set()
        self.passed_over = 0

    def watch(self, printed):
        """Takes from the pairs behind an operation which frames are tables now, and what was peeked at."""
        frames = self.session.monitor.frames
        tables = re.findall(r"^(\d+) table \d$", dict(printed).get("ledger", ""), re.M)
        self.taken = {f for f in map(int, tables) if f < len(frames) and frames[f].kind == "free"}
        peeks = ((line.split()[1], word) for line, word in printed if line.startswith("peek "))
        self.words = {int(place, 0): int(word, 0) for place, word in peeks if re.fullmatch("0x[0-9a-f]{16}", word)}
        self.guessed = False

    def choose(self, slot):
        """The frame that the program took for the table to which the descriptor at `slot` leads."""
        ledger = self.session.monitor
        if not self.taken:
            return ledger.free[-1]
        above = None if slot is None else (slot - ledger.ram.b) // FRAME
        told = [f for f in self.taken if self.words.get(slot) == ledger.address(f) + 3]
        if above in self.unsure or len(self.taken) > 1 and slot not in self.words:
            self.guessed = True
        f = told[0] if told else min(self.taken)
        self.taken.remove(f)
        self.unsure.discard(f)
        if self.guessed:
            self.unsure |= {f, above}
        return f

    def problem(self, line, printed):
        """Says what is wrong with the answer to a line, or None."""
        wanted = self.session.answer(line.encode())
        words = line.split()
        if words[0] == "setup" and wanted == "0":
            self.unsure = set()
        elif words[0] == "give" and wanted == "0":
            self.unsure.discard(int(words[1], 0))
        elif words[0] == "peek" and self.unsure:
            first = int(words[1], 0) - self.session.ram.b
            if {first // FRAME, (first + 7) // FRAME} & self.unsure:
                self.passed_over += 1
                return None
        return tally.first_difference(printed.encode(), wanted.encode())


def pairs(lines, printed):
    """Each line of a script with what was printed for it: for `ledger` a line for each frame."""
    frames, at, found = 0, 0, []
    for line in lines:
        count = frames if line == "ledger" and printed[at : at + 1] != ["error: setup needed"] else 1
        found.append((line, "\n".join(printed[at : at + count])))
        at += count
        if line.startswith("setup ") and found[-1][1] == "0":
            frames = int(line.split()[1], 0)
    return found, printed[at:]


def compare(lines, printed):
    """Holds what was printed to the reference; a problem or None, the pairs, and the peeks not compared."""
    follower = Follower()
    found, rest = pairs(lines, printed)
    for at, (line, answer) in enumerate(found):
        name = line.split()[0]
        if name in ("create", "map") and answer == "0" and follower.session.monitor:
            behind = found[at + 1 : at + 40]
            end = next((i for i, (later, _) in enumerate(behind) if later.split()[0] in REFUSALS), len(behind))
            follower.watch(behind[:end])
        problem = follower.problem(line, answer)
        if problem:
            return f"line {at + 1} of the script, {line}: in its answer {problem}", found, follower.passed_over
    return f"more was printed: {rest[:3]}" if rest else None, found, follower.passed_over


def check(program, file, lines):
    """Runs the program over a script, which stays where there is a problem."""
    file.write_text("\n".join(lines) + "\n")
    ran = subprocess.run([*program, str(file)], stdin=subprocess.DEVNULL, stdout=subprocess.PIPE)
    if ran.returncode != 0:
        return f"ended with status {ran.returncode}", [], 0
    problem, found, passed_over = compare(lines, ran.stdout.decode("latin-1").splitlines())
    if problem is None:
        file.unlink()
    return problem, found, passed_over


def show(seen):
    """Prints how often each answer was seen, and returns those of document 03 that never were."""
    numbers = range(15)
    print(f"{'':12}" + "".join(f"{number:>6}" for number in numbers))
    for name, refusals in REFUSALS.items():
        cells = [seen[name, str(n)] if n in (0, *refusals) or seen[name, str(n)] else "-" for n in numbers]
        print(f"{name:12}" + "".join(f"{cell:>6}" for cell in cells))
    others = sum(count for (_, answer), count in seen.items() if answer == "error: setup needed")
    print(f"error: setup needed: {others}")
    wanted = [(name, str(n)) for name, refusals in REFUSALS.items() for n in (0, *refusals)]
    return [kind for kind in wanted if seen[kind] == 0] + ([] if others else ["error: setup needed"])


def main():
    words = argparse.ArgumentParser(description=__doc__)
    words.add_argument("--long", action="store_true")
    words.add_argument("--seed", type=int, default=1)
    words.add_argument("program", nargs="*", default=["./pageledger"])
    words = words.parse_args()
    count, seen, passed_over = tally.Tally(), collections.Counter(), 0
    folder = pathlib.Path(tempfile.mkdtemp(prefix="pageledger-"))
    for number in range(LONG if words.long else SCRIPTS):
        source = random.Random(f"operations {words.seed} {number}")
        lines = [line for _ in range(MACHINES) for line in operations.Machine(source).run()]
        file = folder / f"operations-{words.seed}-{number}.script"
        problem, found, skipped = check(words.program, file, lines)
        passed_over += skipped
        seen.update((line.split()[0], answer) for line, answer in found if line.split()[0] in REFUSALS)
        count.check(file, problem)
    missing = show(seen)
    done = sum(number for (_, answer), number in seen.items() if answer.isdecimal())
    count.check("every answer of every operation", f"never seen: {missing}" if missing else None)
    count.check(f"{LEAST} operations", f"only {done}" if done < LEAST else None)
    print(f"seed {words.seed}, {done} operations; {passed_over} words of tables not compared")
    if not any(folder.iterdir()):
        folder.rmdir()
    count.finish()


main()
