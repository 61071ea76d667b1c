"""Document 03 in Python, section by section, written from the document alone.

It shares nothing with the crates. The tables are real: they stand in RAM, and walk.py finds its way through them.
"""

from walk import FRAME, TOP, bits

GUESTS = (1, 2, 3, 4)


# Section 1: the ledger


class Frame:
    """What the ledger has of a frame; `was` keeps what a frame was that drains."""

    def __init__(self, kind, guest=None, was=None):
        self.kind, self.guest, self.was = kind, guest, was
        self.readers, self.writers = set(), set()  # whom a page is shared with; its owner is not among them
        self.places = dict.fromkeys(GUESTS, 0)  # where a page is mapped, counted for each guest

    def mapped(self):
        return sum(self.places.values())

    def holds_table(self):
        return "table" in (self.kind, self.was)


class Guest:
    """A guest number; `mapped` has the frame at each guest-physical address."""

    def __init__(self):
        self.root, self.dirty, self.mapped = None, False, {}

    def exists(self):
        return self.root is not None


class Refused(Exception):
    """The number of a refusal of section 2."""


def check(holds, number):
    if not holds:
        raise Refused(number)


# Section 3: what the operations write


def entry(address, rights):
    """The descriptor that map writes for a page."""
    read, write, execute = (bits(rights, bit, bit) for bit in range(3))
    return address | 3 | 15 << 2 | read << 6 | write << 7 | 7 << 8 | (1 - execute) << 54


def index(a, level):
    return bits(a, 47 - 9 * level, 39 - 9 * level)


class Monitor:
    """The nine operations. Each checks what its line of section 3 lists, in that order, before it changes anything.

    Which free frame becomes a table is the team's choice: `choose` is asked for one, and is told the address of the
    descriptor that will lead to it (None for a root). Without it the choice is the program's: the free frames are
    a stack with the lowest on top; one that is asked for by name changes places with the top; one that becomes
    free goes on top.
    """

    def __init__(self, ram, k, choose=None):
        self.ram = ram
        self.frames = [Frame("monitor" if f < k else "free") for f in range(ram.n)]
        self.free = list(range(ram.n - 1, k - 1, -1))
        self.guests = {g: Guest() for g in GUESTS}
        self.choose = choose or (lambda slot: self.free[-1])

    def answer(self, name, *numbers):
        try:
            getattr(self, name)(*numbers)
        except Refused as refused:
            return refused.args[0]
        return 0

    # Parts of the operations

    def address(self, f):
        return self.ram.b + FRAME * f

    def clear(self, f):
        self.ram.bytes[FRAME * f : FRAME * (f + 1)] = bytes(FRAME)

    def live(self, g):
        """The guest, or refusal 5."""
        check(g in GUESTS and self.guests[g].exists(), 5)
        return self.guests[g]

    def frame(self, f):
        """The frame, or refusal 4."""
        check(f < self.ram.n, 4)
        return self.frames[f]

    def occupy(self, f, kind, g):
        """A free frame becomes a page or a table, all zero."""
        at = self.free.index(f)
        self.free[at] = self.free[-1]
        self.free.pop()
        self.frames[f] = Frame(kind, g)
        self.clear(f)

    def release(self, f):
        self.frames[f] = Frame("free")
        self.free.append(f)

    def new_table(self, g, slot):
        """The address of a new table of g."""
        f = self.choose(slot)
        self.occupy(f, "table", g)
        return self.address(f)

    def way(self, root, a):
        """The addresses of a's descriptors, from the root down to the first that leads to no table."""
        slots, table = [], root
        for level in range(4):
            slots.append(table + 8 * index(a, level))
            descriptor = self.ram.word(slots[-1])
            if level == 3 or descriptor == 0:
                return slots
            table = descriptor - 3

    def may_map(self, f, g, rights):
        """Not "the frame isn't a page this guest may use so"."""
        frame = self.frames[f]
        if frame.kind != "page" or frame.guest == g:
            return frame.kind == "page"
        return not rights & 4 and g in frame.readers and (not rights & 2 or g in frame.writers)

    # The operations, with their arguments in the script's order

    def create(self, g):
        check(g in GUESTS, 1)
        guest = self.guests[g]
        check(not guest.exists() and not guest.dirty, 2)
        check(self.free, 3)
        guest.root = self.new_table(g, None)

    def give(self, f, g):
        self.live(g)
        check(self.frame(f).kind == "free", 6)
        self.occupy(f, "page", g)

    def map(self, f, g, a, rights):
        guest = self.live(g)
        check(not guest.dirty, 14)
        check(a % FRAME == 0 and a < TOP, 7)
        check(rights in (1, 3, 5, 7), 8)
        frame = self.frame(f)
        check(self.may_map(f, g, rights), 9)
        check(a not in guest.mapped, 10)
        slots = self.way(guest.root, a)
        check(len(self.free) >= 4 - len(slots), 3)
        slot = slots[-1]
        for level in range(len(slots), 4):
            table = self.new_table(g, slot)
            self.ram.store(slot, table + 3)
            slot = table + 8 * index(a, level)
        self.ram.store(slot, entry(self.address(f), rights))
        guest.mapped[a] = f
        frame.places[g] += 1

    def unmap(self, a, g):
        guest = self.live(g)
        check(a % FRAME == 0 and a < TOP, 7)
        check(a in guest.mapped, 11)
        self.ram.store(self.way(guest.root, a)[-1], 0)
        self.frames[guest.mapped.pop(a)].places[g] -= 1
        guest.dirty = True

    def share(self, g, f, h, w):
        self.live(g)
        other = self.live(h)
        check(g != h, 12)
        frame = self.frame(f)
        check((frame.kind, frame.guest) == ("page", g), 9)
        if h in frame.writers and w == 0:
            check(frame.places[h] == 0, 13)
            check(not other.dirty, 14)
        frame.readers.add(h)
        frame.writers.discard(h)
        if w != 0:
            frame.writers.add(h)

    def unshare(self, g, f, h):
        self.live(g)
        other = self.live(h)
        frame = self.frame(f)
        check((frame.kind, frame.guest) == ("page", g) and h in frame.readers, 9)
        check(frame.places[h] == 0, 13)
        check(not other.dirty, 14)
        frame.readers.discard(h)
        frame.writers.discard(h)

    def take(self, f, g):
        guest = self.live(g)
        frame = self.frame(f)
        check((frame.kind, frame.guest) == ("page", g), 9)
        check(frame.mapped() == 0 and not frame.readers, 13)
        if guest.dirty:
            self.frames[f] = Frame("draining", g, "page")
        else:
            self.release(f)

    def destroy(self, g):
        guest = self.live(g)
        pages = [frame for frame in self.frames if frame.kind == "page"]
        check(not any(frame.readers if frame.guest == g else g in frame.readers for frame in pages), 13)
        for f, frame in enumerate(self.frames):
            if frame.kind in ("page", "table") and frame.guest == g:
                self.frames[f] = Frame("draining", g, frame.kind)
        self.guests[g] = Guest()
        self.guests[g].dirty = True

    def invalidated(self, g):
        check(g in GUESTS, 1)
        self.guests[g].dirty = False
        for f, frame in enumerate(self.frames):
            if frame.kind == "draining" and frame.guest == g:
                self.release(f)


# The ledger as the script language prints it


def names(guests):
    return ",".join(str(g) for g in sorted(guests)) or "-"


def describe(frame):
    if frame.kind in ("monitor", "free"):
        return frame.kind
    text = f"{frame.kind} {frame.guest}"
    if frame.kind == "page":
        text += f" readers {names(frame.readers)} writers {names(frame.writers)} mapped {frame.mapped()}"
    return text
