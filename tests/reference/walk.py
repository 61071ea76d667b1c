"""Document 01 in Python, section by section, written from the document alone.

It shares nothing with the crates: no definition, no code, no vector. The tests hold the program to it.
"""

FRAME = 4096
TOP = 1 << 48  # every address stands below this


# Section 1: memory


class Ram:
    """n frames from physical address b; the byte at address a stands at index a - b."""

    def __init__(self, n, b):
        self.n, self.b = n, b
        self.bytes = bytearray(FRAME * n)

    def place(self, address):
        """The index of the eight bytes at an address, or None where they are not all in RAM."""
        index = address - self.b
        return index if 0 <= index <= len(self.bytes) - 8 else None

    def word(self, address):
        index = self.place(address)
        return None if index is None else int.from_bytes(self.bytes[index : index + 8], "little")

    def store(self, address, value):
        index = self.place(address)
        if index is not None:
            self.bytes[index : index + 8] = value.to_bytes(8, "little")
        return index is not None


def fits(n, b):
    return 16 <= n <= 65536 and b % FRAME == 0 and b + FRAME * n <= TOP


# Section 3: descriptors


def bits(number, high, low):
    return number >> low & (1 << high - low + 1) - 1


def meaning(descriptor, level):
    kind = bits(descriptor, 1, 0)
    if kind == 3:
        return "table" if level < 3 else "page"
    return "block" if kind == 1 and level in (1, 2) else "invalid"


def modelled(descriptor, level):
    """Of a descriptor that is not invalid: does document 01 say what it does?"""
    if bits(descriptor, 50, 48) != 0:
        return False
    what = meaning(descriptor, level)
    if what == "table":
        return bits(descriptor, 63, 59) == 0
    return what == "page" or bits(descriptor, 29 if level == 1 else 20, 12) == 0


def allowed(stage, descriptor, access, el):
    bit = {i: bits(descriptor, i, i) for i in (6, 7, 53, 54)}
    if stage == 2:
        return {"r": bit[6] == 1, "w": bit[7] == 1, "x": bit[54] == 0}[access]
    may_access = el == "el1" or bit[6] == 1
    if access == "r":
        return may_access
    if access == "w":
        return may_access and bit[7] == 0
    if el == "el0":
        return bit[54] == 0
    return bit[53] == 0 and not (bit[6] == 1 and bit[7] == 0)


# Section 4: one stage


class Stop(Exception):
    """No address: the kind, the stage, the level, and the stage-1 level that was being fetched."""

    def __init__(self, kind, stage, level, during=None):
        self.kind, self.stage, self.level, self.during = kind, stage, level, during


def one_stage(stage, fetch, root, address, access, el=None):
    table = root
    for level in range(4):
        low = 39 - 9 * level
        descriptor = fetch(table + 8 * bits(address, low + 8, low), level)
        what = meaning(descriptor, level)
        if what == "invalid":
            raise Stop("TRANSLATION", stage, level)
        if not modelled(descriptor, level):
            raise Stop("NOT_MODELLED", stage, level)
        output = bits(descriptor, 47, 12) << 12
        if what == "table":
            table = output
            continue
        if bits(descriptor, 10, 10) == 0:
            raise Stop("ACCESS_FLAG", stage, level)
        if not allowed(stage, descriptor, access, el):
            raise Stop("PERMISSION", stage, level)
        return output + bits(address, low - 1, 0)


# Section 5: both stages


class Walk:
    """One question to an image; `fetched` has the place of each descriptor, in order."""

    def __init__(self, ram):
        self.ram, self.fetched = ram, []

    def load(self, stage, level, address):
        descriptor = self.ram.word(address)
        if descriptor is None:
            raise Stop("WALK_ABORT", stage, level)
        self.fetched.append(address)
        return descriptor

    def second(self, root, ipa, access):
        return one_stage(2, lambda address, level: self.load(2, level, address), root, ipa, access)

    def first(self, s1root, s2root, va, access, el):
        def fetch(ipa, level):
            try:
                address = self.second(s2root, ipa, "r")
            except Stop as stop:
                raise Stop(stop.kind, 2, stop.level, level) from None
            return self.load(1, level, address)

        if va >= TOP:
            raise Stop("TRANSLATION", 1, 0)
        return one_stage(1, fetch, s1root, va, access, el)


def root_fits(root):
    return root % FRAME == 0 and root < TOP


def finish(walk, translate):
    """The answer as the script language prints it."""
    try:
        text = f"{translate():#x}"
    except Stop as stop:
        during = "" if stop.during is None else f" during stage 1 level {stop.during}"
        text = f"{stop.kind} stage {stop.stage} level {stop.level}{during}"
    return f"{text} fetched {len(walk.fetched)}"


def stage2(walk, root, ipa, access):
    if not (fits(walk.ram.n, walk.ram.b) and root_fits(root) and ipa < TOP):
        return "REFUSED"
    return finish(walk, lambda: walk.second(root, ipa, access))


def both(walk, s1root, s2root, va, access, el):
    if not (fits(walk.ram.n, walk.ram.b) and root_fits(s1root) and root_fits(s2root)):
        return "REFUSED"
    return finish(walk, lambda: walk.second(s2root, walk.first(s1root, s2root, va, access, el), access))
