"""How deep the stack of Arm code gets: the deepest chain of calls from a function, read off its instructions.

Every way through a function is followed with the number of bytes that lie between the stack pointer and where it began. What a way may do
to the stack pointer is listed in `after`; anything else that writes it is a fault, and so are a call by a register, a recursion, two ways
that meet at different depths, and a return at another depth than 0. Encodings: Arm Architecture Reference Manual, "A64 instruction set
encoding"; where register 31 is the stack pointer and not zero is said there instruction by instruction."""

import collections

SP, FRAME_POINTER = 31, 29

# A function's instructions, and by their places the names of the functions that it calls or jumps to.
Function = collections.namedtuple("Function", "words calls")
# Where the stack pointer is, and where x29 points if it was set from the stack pointer: bytes below the beginning.
State = collections.namedtuple("State", "depth frame")


class Fault(Exception):
    """What makes the depth unknown."""


def bits(word, high, low):
    return word >> low & (1 << high - low + 1) - 1


def signed(value, width):
    return value - (1 << width) if value >> width - 1 else value


# ---- what an instruction does to the stack pointer

def is_branch(word):
    return bits(word, 28, 26) == 0b101


def is_pair(word):
    return word & 0x3a000000 == 0x28000000


def is_single(word):
    """A load or store of one register with an offset of nine bits."""
    return word & 0x3b200000 == 0x38000000


def moves_base(word):
    """By how many bytes a load or store moves its base register, or None: pre-index and post-index."""
    if is_pair(word) and bits(word, 24, 23) in (0b01, 0b11):
        vector, size, loads = bits(word, 26, 26), bits(word, 31, 30), bits(word, 22, 22)
        scale = 4 << size if vector else {0: 4, 1: 4 if loads else 16, 2: 8}[size]
        return signed(bits(word, 21, 15), 7) * scale
    if is_single(word) and bits(word, 10, 10):
        return signed(bits(word, 20, 12), 9)
    return None


# Instructions that the compiler has no reason to use, and that write the stack pointer where register 31 stands in this field.
UNKNOWN = [  # mask, value, lowest bit of the field, what it is
    (0x3fe00000, 0x0b200000, 0, "adds or takes a register"),
    (0x7f800000, 0x12000000, 0, "masks"),
    (0x7f800000, 0x32000000, 0, "masks"),
    (0x7f800000, 0x52000000, 0, "masks"),
    (0xbf800000, 0x91800000, 0, "tags"),
    (0xffe0fc00, 0x9ac01000, 0, "tags"),
    (0xbe800000, 0x0c800000, 5, "stores or loads vectors over"),
    (0xff200c00, 0xf8200c00, 5, "loads by a signed pointer over"),
    (0x3f000c00, 0x19000400, 5, "stores or loads tags over"),
    (0x3f000c00, 0x19000800, 5, "stores or loads in order over"),
    (0x3f000c00, 0x19000c00, 5, "stores or loads tags over"),
]


def refuse_unknown(word):
    for mask, value, field, what in UNKNOWN:
        if word & mask == value and word >> field & 31 == SP:
            raise Fault(f"{word:08x} {what} the stack pointer")
    if bits(word, 28, 25) == 0b0010 or bits(word, 28, 25) == 0 and word >> 31:
        raise Fault(f"{word:08x} is of an extension whose vectors have no fixed size")
    if word & 0xffffffe0 == 0xd5184100 or word & 0xfffff0ff == 0xd50040bf:
        raise Fault(f"{word:08x} takes another stack pointer")


def writes_frame_pointer(word):
    """Whether it may write x29; a yes too many only loses sight of the frame."""
    if is_branch(word):
        return False
    if bits(word, 27, 27) == 0 or bits(word, 25, 25) == 1:
        return word & 31 == FRAME_POINTER
    if moves_base(word) is not None and bits(word, 9, 5) == FRAME_POINTER:
        return True
    if is_pair(word) and not bits(word, 22, 22) or is_single(word) and not bits(word, 23, 22):
        return False
    return FRAME_POINTER in (word & 31, bits(word, 14, 10), bits(word, 20, 16))


def after(word, state):
    """The state after an instruction."""
    refuse_unknown(word)
    to, base = word & 31, bits(word, 9, 5)
    if word & 0x3f800000 == 0x11000000:  # add or sub of a number, and mov to or from the stack pointer
        up = bits(word, 21, 10) << 12 * bits(word, 22, 22)
        up = -up if bits(word, 30, 30) else up
        start = {SP: state.depth, FRAME_POINTER: state.frame}.get(base)
        if to == SP and (start is None or not word >> 31):
            raise Fault(f"{word:08x} sets the stack pointer from x{base}")
        if to == SP:
            return state._replace(depth=start - up)
        if to == FRAME_POINTER:
            return state._replace(frame=None if base != SP or not word >> 31 else start - up)
    up = moves_base(word)
    if up is not None and base == SP:
        state = state._replace(depth=state.depth - up)
    return state._replace(frame=None) if writes_frame_pointer(word) else state


# ---- the ways through a function

def next_places(word, at, calls):
    """The places in the function to which an instruction leads."""
    if word & 0xfffffc1f == 0xd65f0000 or word & 0xffe0001f == 0xd4200000 or word >> 16 == 0:  # ret; brk, udf: it stops
        return []
    if word & 0xfe000000 == 0xd6000000:
        raise Fault(f"{word:08x} calls or jumps to a register")
    if word >> 26 == 0b100101:  # bl
        if at not in calls:
            raise Fault(f"{word:08x} calls a place without a name")
        return [at + 1]
    if word >> 26 == 0b000101:  # b
        return [] if at in calls else [at + signed(bits(word, 25, 0), 26)]
    for mask, value, high, low in ((0xff000000, 0x54000000, 23, 5), (0x7e000000, 0x34000000, 23, 5), (0x7e000000, 0x36000000, 18, 5)):
        if word & mask == value:  # b.cond; cbz, cbnz; tbz, tbnz
            return [at + 1] + ([] if at in calls else [at + signed(bits(word, high, low), high - low + 1)])
    return [at + 1]


def merged(old, new):
    """What is known where two ways meet."""
    if old is None or old == new:
        return new
    if old.depth != new.depth:
        raise Fault(f"two ways meet at depths {old.depth} and {new.depth}")
    return new._replace(frame=None)


def depths(function):
    """The states before each instruction that can be reached."""
    states, left = {0: State(0, None)}, [0]
    while left:
        at = left.pop()
        if not 0 <= at < len(function.words):
            raise Fault("a way leaves the function")
        word, state = function.words[at], after(function.words[at], states[at])
        if state.depth < 0:
            raise Fault(f"{word:08x} gives back more of the stack than was taken")
        following = next_places(word, at, function.calls)
        leaves = word & 0xfffffc1f == 0xd65f0000 or not following and at in function.calls
        if leaves and state.depth:
            raise Fault(f"{word:08x} leaves with {state.depth} bytes taken")
        for place in following:
            known = merged(states.get(place), state)
            if known != states.get(place):
                states[place] = known
                left.append(place)
    return states


def deepest(functions, name, outside=(), way=()):
    """How many bytes of stack a call of this function takes, and the chain of calls that takes most. Functions of `outside` are not looked
    into: theirs are not counted."""
    if name in way:
        raise Fault(f"{' > '.join([*way, name])}: a recursion")
    if name in outside and name not in functions:
        return 0, [name]
    if name not in functions:
        raise Fault(f"{name} is not there to be looked at")
    try:
        states = depths(functions[name])
        ends = [after(functions[name].words[at], state).depth for at, state in states.items()]
    except Fault as why:
        raise Fault(f"{name}: {why}") from None
    best = max([0, *ends]), [name]
    for at, callee in functions[name].calls.items():
        if at in states:
            below, chain = deepest(functions, callee, outside, (*way, name))
            best = max(best, (states[at].depth + below, [name, *chain]), key=lambda found: found[0])
    return best
