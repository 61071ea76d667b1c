#!/usr/bin/env python3
"""The script language over walk.py and monitor.py: script.py FILE prints what ./pageledger FILE should."""

import sys

import monitor
import walk as document

FRAMES = 1024  # the program lends no more
LONGEST = 4095  # bytes of a line, without its newline


class Bad(Exception):
    """A line that can't be read, and why."""


def number(word):
    digits, base = (word[2:], 16) if word.startswith("0x") else (word, 10)
    known = "0123456789abcdefABCDEF"[: 22 if base == 16 else 10]
    if digits == "" or digits.strip(known) != "":
        raise Bad("number expected")
    value = int(digits, base)
    if value >= 1 << 64:
        raise Bad("number too large")
    return value


def access(word):
    if word not in ("r", "w", "x"):
        raise Bad("access is r, w or x")
    return word


def level(word):
    if word not in ("el0", "el1"):
        raise Bad("level is el0 or el1")
    return word


def text(line):
    """What stands before the comment, or before a carriage return at the end; a comment may hold any byte."""
    before, mark, _ = line.partition(b"#")
    before = before if mark else before.removesuffix(b"\r")
    if any(byte != 9 and not 32 <= byte < 127 for byte in before):
        raise Bad("not text")
    return before.decode("ascii")


def asks(question):
    """A command for the monitor. It needs a ledger and tables that set-up and operations have made."""

    def act(session, *words):
        if session.monitor is None:
            raise Bad("setup needed")
        return question(session, *words)

    return act


def operation(name):
    return asks(lambda session, *numbers: str(session.monitor.answer(name, *numbers)))


class Session:
    """The state between the lines of a script, and the last walk, for those who want to see it.

    There is no monitor before set-up, and none after a word was written into one of its tables.
    """

    def __init__(self, choose=None):
        self.ram, self.monitor, self.choose = document.Ram(0, 0), None, choose
        self.last = None

    def setup(self, n, b, k):
        if n > FRAMES or not document.fits(n, b) or k >= n:
            return "4"
        self.ram = document.Ram(n, b)
        self.monitor = monitor.Monitor(self.ram, k, self.choose)
        return "0"

    def word(self, address, value):
        if not self.ram.store(address, value):
            return "refused"
        touched = {(byte - self.ram.b) // document.FRAME for byte in (address, address + 7)}
        if self.monitor and any(self.monitor.frames[f].holds_table() for f in touched):
            self.monitor = None
        return "ok"

    def peek(self, address):
        value = self.ram.word(address)
        return "refused" if value is None else f"{value:#018x}"

    def stage2(self, *words):
        self.last = document.Walk(self.ram)
        return document.stage2(self.last, *words)

    def walk(self, *words):
        self.last = document.Walk(self.ram)
        return document.both(self.last, *words)

    @asks
    def translate(self, g, ipa, access):
        if g not in monitor.GUESTS or not self.monitor.guests[g].exists():
            return "5"
        return self.stage2(self.monitor.guests[g].root, ipa, access)

    @asks
    def frame(self, f):
        return monitor.describe(self.monitor.frames[f]) if f < self.ram.n else "4"

    @asks
    def guest(self, g):
        if g not in monitor.GUESTS:
            return "1"
        guest = self.monitor.guests[g]
        return (f"exists {guest.root:#x}" if guest.exists() else "none") + (" dirty" if guest.dirty else "")

    @asks
    def ledger(self):
        return "\n".join(f"{f} {monitor.describe(frame)}" for f, frame in enumerate(self.monitor.frames))

    OPERATIONS = {"create": 1, "give": 2, "map": 4, "unmap": 2, "share": 4, "unshare": 3, "take": 2}
    OPERATIONS |= {"destroy": 1, "invalidated": 1}  # each with the count of its numbers
    FORMS = {
        "setup": (setup, (number, number, number)),
        "word": (word, (number, number)),
        "peek": (peek, (number,)),
        "stage2": (stage2, (number, number, access)),
        "walk": (walk, (number, number, number, access, level)),
        "translate": (translate, (number, number, access)),
        "frame": (frame, (number,)),
        "guest": (guest, (number,)),
        "ledger": (ledger, ()),
    } | {name: (operation(name), (number,) * count) for name, count in OPERATIONS.items()}

    def obey(self, line):
        """The answer to a line, without its newline; None where nothing is printed."""
        if len(line) > LONGEST:
            raise Bad("line too long")
        words = text(line).split()
        if not words:
            return None
        if words[0] not in self.FORMS:
            raise Bad("unknown command")
        act, readers = self.FORMS[words[0]]
        read = [reader(word) for reader, word in zip(readers, words[1:])]
        if len(words) - 1 != len(readers):
            raise Bad("too many words" if len(words) - 1 > len(readers) else "too few words")
        return act(self, *read)

    def answer(self, line):
        try:
            return self.obey(line)
        except Bad as bad:
            return f"error: {bad}"


def lines(script):
    """The lines of a script; a last newline may be missing, and starts no further line."""
    parts = script.split(b"\n")
    return parts if parts[-1] else parts[:-1]


def run(script):
    session = Session()
    answers = [session.answer(line) for line in lines(script)]
    return "".join(f"{answer}\n" for answer in answers if answer is not None)


if __name__ == "__main__":
    source = sys.stdin.buffer if sys.argv[1:] == ["-"] else open(sys.argv[1], "rb")
    sys.stdout.write(run(source.read()))
