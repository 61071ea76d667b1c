"""Counting for the checks: each ends in 'N passed, M failed', and in a status that says the same."""

import subprocess
import sys


class Tally:
    def __init__(self):
        self.passed = self.failed = 0

    def check(self, name, problem):
        """Counts one check; a problem is what went wrong, or None."""
        if problem is None:
            self.passed += 1
        else:
            self.failed += 1
            print(f"FAILED {name}: {problem}")

    def demand(self, name, problem):
        """As check, for what is about the test itself, as that it tries enough: no fault of the product can fail it, so where it holds it
        is not counted."""
        if problem is not None:
            self.check(name, problem)

    def finish(self):
        print(f"{self.passed} passed, {self.failed} failed")
        sys.exit(self.failed != 0)


def first_difference(got, wanted):
    """Says where two outputs part, or None."""
    if got == wanted:
        return None
    got, wanted = ([line[:200] for line in text.split(b"\n")] for text in (got, wanted))
    at = next((i for i, (g, w) in enumerate(zip(got, wanted)) if g != w), min(len(got), len(wanted)))
    show = lambda lines: repr(lines[at]) if at < len(lines) else "nothing more"
    return f"line {at + 1}\n  printed  {show(got)}\n  expected {show(wanted)}"


def problem(command, expected, **how):
    """Runs a command and holds what it prints to what is expected of it."""
    ran = subprocess.run(command, stdout=subprocess.PIPE, **how)
    if ran.returncode != 0:
        return f"ended with status {ran.returncode}"
    return first_difference(ran.stdout, expected)
