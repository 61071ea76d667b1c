"""Random operations on small machines, chosen with the reference's ledger in sight so that every answer occurs.

After each operation a script asks for the whole ledger, for the guests and for some translations.
"""

import monitor
import script
from walk import FRAME, TOP

HOSTILE = (0, 1, 4, 5, 8, 16, 4095, FRAME, (1 << 32) - 1, 1 << 32, (1 << 32) + 1, (1 << 32) + 2)
HOSTILE += (TOP - FRAME, TOP - 1, TOP, TOP + FRAME, 1 << 63, (1 << 64) - FRAME, (1 << 64) - 2, (1 << 64) - 1)
WEIGHTS = {"create": 8, "give": 14, "map": 27, "unmap": 9, "share": 15, "unshare": 9, "take": 7}
WEIGHTS |= {"destroy": 3, "invalidated": 8}
LENGTH = 100  # operations on a machine


class Machine:
    """A machine from its set-up on; `lines` has the script so far."""

    def __init__(self, random):
        self.random, self.session, self.lines = random, script.Session(), []
        self.n = random.randrange(16, 41)
        top = TOP - FRAME * self.n
        self.b = random.choice((0, 0x40000000, top, random.randrange(top) & -FRAME))
        self.pages = [random.choice((0, 0x80000000, 1 << 47, TOP - FRAME))]
        while len(self.pages) < 9:
            self.pages.append(self.near(random.choice(self.pages)))
        self.stored = {}  # where a frame was written since it was last cleared
        self.set_up()

    def near(self, page):
        """A page that differs at one level, mostly the last, so that guests share few tables or many."""
        low = 39 - 9 * self.random.choices((0, 1, 2, 3), (1, 1, 2, 5))[0]
        return page ^ page & 511 << low | self.random.choice((0, 1, 2, 255, 511)) << low

    def ask(self, line):
        """Adds a line that changes nothing."""
        self.lines.append(line)

    def act(self, line):
        """Adds a line that may change something; its answer."""
        self.lines.append(line)
        return self.session.answer(line.encode())

    def set_up(self):
        if self.chance(0.2):
            self.act(f"setup {self.n} {self.b + self.random.choice((1, 8, TOP))} 0")
            self.act(f"setup {self.n} {self.b} {self.random.choice((self.n, self.n + 1, *HOSTILE[-4:]))}")
        few = self.n - self.random.randrange(1, 10)
        self.act(f"setup {self.n} {self.b:#x} {self.random.choice((0, 1, 2, few))}")

    def run(self):
        for at in range(LENGTH):
            self.operate("create" if at < 3 else self.random.choices(list(WEIGHTS), list(WEIGHTS.values()))[0])
            while self.chance(0.3):
                self.store()
            if self.chance(0.2):
                self.question()
        if self.chance(0.3):
            self.spoil()
        return self.lines

    # Chances and choices

    def chance(self, share):
        return self.random.random() < share

    def mostly(self, good, others, share=0.9):
        """One of the good ones, if there are any; at times one of the others."""
        good = list(good)
        return self.random.choice(good if good and self.chance(share) else list(others))

    def guests(self, holds):
        """The guest numbers for which something holds, else any; at times any."""
        guests = self.session.monitor.guests
        return self.mostly((g for g in guests if holds(guests[g])), guests, 0.95)

    def live(self):
        return self.guests(lambda guest: guest.exists())

    def frames(self, holds, share=0.9):
        frames = self.session.monitor.frames
        return self.mostly((f for f in range(self.n) if holds(frames[f])), range(self.n), share)

    def shared(self, with_whom):
        """The owner, the page and a guest that it is shared with, where there are such."""
        frames = enumerate(self.session.monitor.frames)
        return self.mostly(((p.guest, f, h) for f, p in frames for h in with_whom(p)), [self.page_and_other()])

    def page_and_other(self):
        """The owner, one of its pages and another guest, where there are such."""
        f = self.frames(lambda frame: frame.kind == "page")
        g = self.session.monitor.frames[f].guest or self.live()
        guests = self.session.monitor.guests
        return g, f, self.mostly((h for h in guests if h != g and guests[h].exists()), guests)

    # The operations: the numbers of each

    def create(self):
        return [self.guests(lambda guest: not guest.exists())]

    def give(self):
        return [self.frames(lambda frame: frame.kind == "free"), self.live()]

    def map(self):
        ledger, anywhere = self.session.monitor, [(self.random.randrange(self.n), self.live())]
        clean = {g for g, guest in ledger.guests.items() if guest.exists() and not guest.dirty}
        pages = [(f, page) for f, page in enumerate(ledger.frames) if page.kind == "page"]
        f, g = self.mostly(((f, g) for f, page in pages for g in clean & (page.readers | {page.guest})), anywhere)
        a = self.mostly((a for a in self.pages if a not in ledger.guests[g].mapped), self.pages)
        return [f, g, a, self.mostly((1, 3, 5, 7) if ledger.frames[f].guest == g else (1, 3), range(9))]

    def unmap(self):
        g = self.guests(lambda guest: guest.mapped)
        return [self.mostly(self.session.monitor.guests[g].mapped, self.pages, 0.8), g]

    def share(self):
        """Often the end of the right to write."""
        if self.chance(0.4):
            return [*self.shared(lambda page: page.writers), 0]
        return [*self.page_and_other(), self.random.choice((0, 1, 1, *HOSTILE))]

    def unshare(self):
        return list(self.shared(lambda page: page.readers))

    def take(self):
        pages = lambda frame: frame.kind == "page" and (not frame.readers or self.chance(0.3))
        f = self.frames(lambda frame: pages(frame) and (not frame.mapped() or self.chance(0.2)))
        return [f, self.session.monitor.frames[f].guest or self.live()]

    def destroy(self):
        return [self.live()]

    def invalidated(self):
        return [self.guests(lambda guest: guest.dirty)]

    # What a script has

    def operate(self, name):
        numbers = getattr(self, name)()
        if self.chance(0.06):
            numbers[self.random.randrange(len(numbers))] = self.random.choice(HOSTILE)
        if self.chance(0.05):  # several faults at once, of which the first counts
            numbers = [self.random.choice((number, numbers[0], *HOSTILE)) for number in numbers]
        before = set(self.session.monitor.free)
        answer = self.act(" ".join([name] + [self.number(number) for number in numbers]))
        self.ask("ledger")
        for g in monitor.GUESTS:
            self.ask(f"guest {g}")
        g, a = {"map": numbers[1:3], "unmap": numbers[::-1]}.get(name, (None, None))
        if g is not None:
            for access in "rwx":
                self.ask(f"translate {g} {min(a + 0xABC, (1 << 64) - 1):#x} {access}")
        for _ in range(3):
            self.translate()
        self.look(before - set(self.session.monitor.free), self.slots(g, a) if answer == "0" else [])

    def number(self, number):
        return self.random.choice((str(number), f"{number:#x}"))

    def translate(self):
        page = self.random.choice(self.pages) + self.random.randrange(FRAME)
        self.ask(f"translate {self.live()} {page:#x} {self.random.choice('rwx')}")

    def slots(self, g, a):
        """The places of a's descriptors in g's tables."""
        return [] if g is None else self.session.monitor.way(self.session.monitor.guests[g].root, a)

    def look(self, taken, slots):
        """Looks at the words that were just written or cleared, and at one that must be as it was."""
        places = {place for f in taken for place in self.stored.pop(f, ())} | set(slots[-1:])
        if len(taken) > 1:
            inside = {slot % FRAME for slot in slots}
            places |= {self.session.monitor.address(f) + offset for f in taken for offset in inside} | set(slots)
        if self.stored:
            places.add(self.random.choice(sorted(self.random.choice(list(self.stored.values())))))
        for place in sorted(places):
            self.ask(f"peek {place:#x}")

    def store(self):
        """A guest writes into a page, or the host elsewhere: a descriptor at a place where tables have theirs."""
        f = self.frames(lambda frame: frame.kind == "page", 0.8)
        if self.session.monitor.frames[f].holds_table():
            return
        place = self.b + FRAME * f + 8 * monitor.index(self.random.choice(self.pages), self.random.randrange(4))
        frame = self.b + FRAME * self.random.randrange(self.n)
        value = self.random.choice((frame + 3, monitor.entry(frame, 7), self.random.getrandbits(64)))
        self.act(f"word {place:#x} {value:#x}")
        self.stored.setdefault(f, set()).add(place)

    def question(self):
        """A question with any number."""
        number = self.random.choice((*HOSTILE, self.n - 1, self.n, self.random.randrange(self.n)))
        place = self.b + self.random.randrange(-8, FRAME * self.n + 8)
        self.ask(
            self.random.choice(
                (f"frame {number}", f"guest {number}", f"translate {number} {self.pages[0]} r", f"peek {max(place, 0)}")
                + (f"translate {self.live()} {number} {self.random.choice('rwx')}", f"translate {self.live()} {TOP} r")
            )
        )

    def spoil(self):
        """Writes into a table, after which operations and questions want a set-up."""
        tables = [f for f in range(self.n) if self.session.monitor.frames[f].holds_table()]
        if tables:
            place = self.b + FRAME * self.random.choice(tables) + self.random.randrange(-7, FRAME)
            self.act(f"word {max(place, self.b)} 0")
        for line in ("create 1", "give 15 1", "invalidated 1", "ledger", "guest 1", "frame 0", "translate 1 0 r"):
            self.ask(line)
        self.ask(f"setup {self.n} {self.b} {self.n}")
        self.ask("ledger")
