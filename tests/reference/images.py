"""Random images of document 01's memory, built so that walks go deep, and ways to damage them."""

from walk import FRAME, TOP, bits

SPAN = {1: 1 << 30, 2: 1 << 21, 3: 1 << 12}  # the bytes that a leaf (a block or a page) of a level spans
ADDRESS = TOP - FRAME  # bits 47..12
FLAG = 1 << 10
NO_MATTER = {"table": 0x07F8_0000_0000_0FFC, "leaf": 0xFF98_0000_0000_0B3C}
RIGHTS = (1 << 6, 1 << 7, 1 << 53, 1 << 54)
READABLE = 1 << 6  # in both stages


class Image:
    """`words` has the tables of both stages, `pages` virtual addresses that lead through them, `levels`
    where blocks and pages may stand."""

    def __init__(self, random):
        self.random = random
        self.n = random.choice((16, 17, 100, 1024))
        top = TOP - FRAME * self.n
        self.base = random.choice((0, 0x40000000, top, random.randrange(top) & ADDRESS))
        self.free = [self.base + FRAME * frame for frame in range(self.n)]
        random.shuffle(self.free)
        if random.random() < 0.5:  # the root table at the end of RAM
            self.free.append(self.base + FRAME * (self.n - 1))
        self.words, self.where = {}, {}
        self.levels = random.choice(((1,), (3,), (2, 3), (1, 2, 3), (1, 2, 3)))
        self.branches = {stage: self.some_branches() for stage in (1, 2)}
        self.root2 = self.frame()
        self.root1 = self.reach(self.frame(), READABLE | FLAG)
        self.pages = [self.page() for _ in range(6)]

    def some_branches(self):
        """The indices that lead to tables, few for each level so that walks share tables."""
        return [[self.random.randrange(256) for _ in range(1 if self.n < 100 else 3)] for _ in range(3)]

    def frame(self):
        """A frame that nobody has; once all are taken, any."""
        return self.free.pop() if self.free else self.base + FRAME * self.random.randrange(self.n)

    def address(self, stage, level):
        """An address whose leaf is to stand at a level: no index there leads to a table."""
        indices = [self.random.choice(self.branches[stage][above]) for above in range(level)]
        indices += [self.random.randrange(256, 512)] + [0] * (3 - level)
        return sum(index << 39 - 9 * at for at, index in enumerate(indices))

    def fill(self, what):
        """A value for the bits that don't matter in a table or a leaf."""
        return self.random.choice((0, self.random.getrandbits(64) & NO_MATTER[what]))

    def physical(self, stage, address):
        """Where a stage's tables lie: those of stage 1 at guest-physical addresses."""
        page = address & ADDRESS
        return address if stage == 2 else self.where.get(page, page) + address % FRAME

    def map(self, stage, root, address, level, output):
        """Writes the leaf at the level, and the tables on the way to it where they are missing."""
        table = root
        for at in range(level + 1):
            low = 39 - 9 * at
            slot = self.physical(stage, table + 8 * bits(address, low + 8, low))
            if at == level:
                self.words[slot] = output | (3 if level == 3 else 1) | self.fill("leaf")
            elif slot not in self.words:
                below = self.frame() if stage == 2 else self.reach(self.frame(), READABLE | FLAG)
                self.words[slot] = below | 3 | self.fill("table")
            table = self.words[slot] & ADDRESS

    def reach(self, physical, rights):
        """A guest-physical address that stage 2 leads to a physical one."""
        level = self.random.choice(self.levels)
        address = self.address(2, level) + physical % SPAN[level]
        self.where[address & ADDRESS] = physical & ADDRESS
        self.map(2, self.root2, address, level, physical - physical % SPAN[level] | rights)
        return address

    def rights(self):
        """Half the time those for reading, otherwise any; the access flag is mostly set."""
        flags = sum(right for right in RIGHTS if self.random.random() < 0.5)
        return (FLAG if self.random.random() < 0.9 else 0) | self.random.choice((READABLE, flags))

    def page(self):
        """A virtual address that leads to a frame of RAM or to a device."""
        device = self.random.randrange(TOP) & ADDRESS
        physical = self.random.choice((self.frame(), device)) + self.random.randrange(FRAME)
        output = self.reach(physical, self.rights())
        level = self.random.choice(self.levels)
        address = self.address(1, level) + output % SPAN[level]
        self.map(1, self.root1, address, level, output - output % SPAN[level] | self.rights())
        return address

    def places(self):
        """Addresses of tables, good and bad."""
        end = self.base + FRAME * self.n
        known = (self.root1, self.root2, self.base, end - FRAME, end, self.base - FRAME, 0, TOP - FRAME)
        return [place & ADDRESS for place in known] + list(self.where) + self.free[:2]


def damaged(image, address, descriptor):
    """A descriptor in which one thing is wrong, or at least different."""
    random = image.random
    place = random.choice(image.places() + [address & ADDRESS])
    return random.choice(
        (
            descriptor & ~3 | random.randrange(4),
            descriptor ^ 2,
            descriptor | 1 << random.randrange(48, 51),
            descriptor | 1 << random.randrange(59, 64),
            descriptor ^ 1 << random.randrange(12, 30),
            descriptor & ~FLAG,
            descriptor & ~FLAG,
            descriptor ^ READABLE,
            descriptor ^ READABLE,
            descriptor ^ random.choice(RIGHTS),
            descriptor & ~ADDRESS | place,
            descriptor & ~ADDRESS | random.getrandbits(48) & ADDRESS,
            (1 << 64) - 1,
            random.getrandbits(64),
        )
    )
