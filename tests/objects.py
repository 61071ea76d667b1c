#!/usr/bin/env python3
"""objects.py: what the archives that ./build wrote hold: the functions of the header, nothing that a monitor without a C library
lacks, and for Arm the instructions that we count on. Reads the objects themselves: no disassembler is wanted."""

import pathlib
import re
import struct

import header
import stack
import tally

HERE = pathlib.Path(__file__).resolve().parent.parent
OUT = HERE / "out"
HELPERS = {"memset", "memcpy", "memmove"}
X86_64, AARCH64 = 62, 183
# What a linker fills in: jumps to a symbol, the first two of them on a condition, and a call of it.
TSTBR14, CONDBR19, JUMP26, CALL26 = 279, 280, 282, 283
STACK = 1024  # bytes: the header says that less is taken


class Object:
    """A relocatable ELF object of 64 bits, lowest byte first: its machine, its symbols and its functions."""

    def __init__(self, name, data):
        if data[:6] != b"\x7fELF\x02\x01":
            raise ValueError(f"{name} is no ELF object of 64 bits")
        self.name = name
        (self.machine,) = struct.unpack_from("<H", data, 18)
        (start,) = struct.unpack_from("<Q", data, 40)
        (count,) = struct.unpack_from("<H", data, 60)
        # name, type, flags, address, offset, size, link, info, alignment, size of an entry
        sections = [struct.unpack_from("<IIQQQQIIQQ", data, start + 64 * i) for i in range(count)]
        table = next(s for s in sections if s[1] == 2)
        texts = sections[table[6]][4]
        symbols = []
        for at in range(table[4], table[4] + table[5], 24):
            where, info, _, section, value, size = struct.unpack_from("<IBBHQQ", data, at)
            symbols.append((data[texts + where:data.index(b"\0", texts + where)].decode(), info, section, value, size))
        self.defined = {symbol for symbol, info, section, _, _ in symbols if info >> 4 and section}
        self.wanted = {symbol for symbol, info, section, _, _ in symbols if info >> 4 and not section}
        self.functions = {}
        if self.machine != AARCH64:
            return
        called, starts = {}, {(section, value): symbol for symbol, info, section, value, _ in symbols if info & 15 == 2}
        for s in sections:
            for at in range(s[4], s[4] + s[5], 24) if s[1] == 4 else ():
                where, info, more = struct.unpack_from("<QQq", data, at)
                symbol, _, section, value, _ = symbols[info >> 32]
                if info & 0xffffffff in (TSTBR14, CONDBR19, JUMP26, CALL26):
                    called[s[7], where] = starts.get((section, value + more), symbol)
        for symbol, info, section, value, size in symbols:
            if info & 15 == 2 and section:
                words = struct.unpack_from(f"<{size // 4}I", data, sections[section][4] + value)
                places = {i: called.get((section, value + 4 * i)) for i in range(len(words))}
                self.functions[symbol] = stack.Function(words, {i: name for i, name in places.items() if name is not None})

    def instructions(self):
        return [word for function in self.functions.values() for word in function.words]


def members(archive):
    """The objects of an archive."""
    data = archive.read_bytes()
    if data[:8] != b"!<arch>\n":
        raise ValueError(f"{archive} is no archive")
    at, names = 8, b""
    while at < len(data):
        name, size = data[at:at + 16].decode().strip(), int(data[at + 48:at + 58])
        body = data[at + 60:at + 60 + size]
        at += 60 + size + size % 2
        if name == "//":
            names = body
        elif name != "/":
            yield Object(name if not re.fullmatch(r"/\d+", name) else names[int(name[1:]):].split(b"/\n")[0].decode(), body)


# ---- Arm instructions, by their bits (Arm Architecture Reference Manual, "A64 instruction set encoding")

def divides(word):
    return word & 0x7fe0f800 == 0x1ac00800


def calls_register(word):
    return word & 0xfffffc1f == 0xd63f0000


def loads_or_stores(word):
    return (word >> 25) & 0b0101 == 0b0100


def uses_vectors(word):
    return (word >> 25) & 0b0111 == 0b0111 or loads_or_stores(word) and (word >> 26) & 1 == 1


def one_register(word):
    """A load or store of one register: its size in bytes, whether it loads, and its base register; else None."""
    if (word >> 27) & 0b111 != 0b111 or not loads_or_stores(word) or uses_vectors(word):
        return None  # a conditional compare (ccmp) has the first of these bits, too
    return 1 << (word >> 30), (word >> 22) & 3 != 0, (word >> 5) & 31


def small_loads(steps, least):
    """The sizes of loads of fewer bytes than these, but for loads from the stack (base register 31)."""
    found = [one_register(word) for word, _ in steps]
    return sorted({f[0] for f in found if f and f[1] and f[0] < least and f[2] != 31})


def loads_descriptor(word):
    """A load of eight bytes at a base plus a register: ldr x, [x, x]."""
    return word & 0xffe00c00 == 0xf8600800


def stores_descriptor(word):
    """A store of eight bytes at a base plus a register: str x, [x, x]."""
    return word & 0xffe00c00 == 0xf8200800


def releases_descriptor(word):
    """A store of eight bytes that no observer sees before those that came before it: stlr x, [x]."""
    return word & 0xfffffc00 == 0xc89ffc00


def plain_stores(steps):
    """How many stores of eight bytes and more are no release, but for those on the stack (base register 31): str x, and stp x, x."""
    pairs = [word for word, _ in steps if word & 0xfe400000 == 0xa8000000 and (word >> 5) & 31 != 31]
    return len(pairs) + sum(f is not None and f[0] == 8 and not f[1] and f[2] != 31 for f in (one_register(word) for word, _ in steps))


def steps(functions, name):
    """A function's instructions in the order of the code, its callees' in the place of a call; each with the name of a callee that is
    not among these functions."""
    for i, word in enumerate(functions[name].words):
        callee = functions[name].calls.get(i)
        if callee in functions:
            yield from steps(functions, callee)
        else:
            yield word, callee


def writes_to_ram(steps, stores):
    """C for a frame cleared, S for a descriptor stored, ? for a call of something else."""
    return "".join({None: "S" if stores(word) else "", "memset": "C"}.get(callee, "?") for word, callee in steps)


# What a function clears and stores. In map a new table is cleared before it is linked, and the page's entry comes last; set-up clears
# the ledger.
WRITES = {"pageledger_set_up": "C", "pageledger_create": "C", "pageledger_give": "C", "pageledger_map": "(CS)+S", "pageledger_unmap": "S"}
# How many descriptors a function reads at least, as compiled.
READS = {"pageledger_map": 2, "pageledger_unmap": 2, "pageledger_both_stages": 1}
# These have no ledger, whose words are of 32 bits.
WALKS = {"pageledger_stage2", "pageledger_both_stages"}


def check_functions(say, functions, stores):
    """Arm: each descriptor is read by one load and written by one store, of the kind that `stores` knows."""
    words = [word for function in functions.values() for word in function.words]
    say("has code", None if len(words) > 100 else f"{len(words)} instructions")
    exported = {name: list(steps(functions, name)) for name in functions if name.startswith("pageledger_")}
    small = {name: small_loads(s, 8 if name in WALKS else 4) for name, s in exported.items()}
    found = ", ".join(f"{name} has loads of {sizes} bytes" for name, sizes in small.items() if sizes)
    say("reads RAM by no load of fewer than 64 bits", found)
    wrong = [name for name, least in READS.items() if sum(loads_descriptor(word) for word, _ in exported[name]) < least]
    say("reads a descriptor by one 64-bit load", wrong and f"{', '.join(wrong)}: too few ldr x, [x, x]")
    wrote = {name: writes_to_ram(s, stores) for name, s in exported.items()}
    wrong = [f"{name} writes '{what}'" for name, what in wrote.items() if not re.fullmatch(WRITES.get(name, ""), what)]
    say("writes a descriptor by one 64-bit store, and links a table once it is cleared", ", ".join(wrong))
    if stores is releases_descriptor:
        wrong = [name for name, what in WRITES.items() if "S" in what and plain_stores(exported[name])]
        wrong += [name for name, s in exported.items() if any(stores_descriptor(word) for word, _ in s)]
        wrong = ", ".join(sorted(set(wrong)))
        say("writes no descriptor but by a store-release", wrong and f"{wrong}: a plain 64-bit store, not the stack's")
    say("calls back nobody", "there is a call of a register" if any(map(calls_register, words)) else None)
    say("divides nothing", "there are divisions" if any(map(divides, words)) else None)


def check_stack(say, folder, functions, outside):
    """Arm: the deepest chain of calls from any function of the header, its helpers among them, takes less stack than the header says."""
    try:
        size, chain = max(stack.deepest(functions, name, outside) for name in functions if name.startswith("pageledger_"))
    except stack.Fault as why:
        say("its stack can be counted", str(why))
        return
    print(f"{folder} takes {size} bytes of stack at most: {' > '.join(chain)}"
          + (f"; what {', '.join(sorted(outside))} of the C library take is not counted" if outside else ""))
    say(f"takes less than {STACK} bytes of stack", None if size < STACK else f"{size}")


def check_archive(count, folder, machine, functions):
    objects = list(members(OUT / folder / "libpageledger.a"))
    say = lambda what, problem: count.check(f"{folder}: {what}", problem or None)
    listed = lambda names: ", ".join(sorted(names))
    ours = [o for o in objects if o.defined & functions]
    helpers = [o for o in objects if o not in ours]
    say("for its machine", listed(o.name for o in objects if o.machine != machine))
    say("defines the header's functions", listed(functions - set().union(*(o.defined for o in ours))))
    say("defines nothing else", listed(set().union(*(o.defined for o in ours)) - functions))
    # so no division in software, and no stack protector
    say("wants no more than memset, memcpy, memmove", listed(set().union(*(o.wanted for o in objects)) - HELPERS))
    print(f"{folder} wants: {listed(set().union(*(o.wanted for o in ours))) or 'nothing'}")
    if folder == "aarch64-none-elf":
        defined = set().union(*(o.defined for o in objects))
        say("has all that it wants", listed(set().union(*(o.wanted for o in objects)) - defined))
        say("its helpers are these three alone", listed(set().union(*(o.defined for o in helpers)) ^ HELPERS))
        clears = [w for o in helpers for w in o.functions["memset"].words] if helpers else []
        wide = any(one_register(w) and one_register(w)[:2] == (8, False) for w in clears)
        say("clears by 64-bit stores", None if wide else "it does not")
        say("uses no vector register", "it does" if any(uses_vectors(w) for o in objects for w in o.instructions()) else None)
    else:
        say("has no helpers", listed(o.name for o in helpers))
    if machine != AARCH64:
        return
    stores = releases_descriptor if folder == "aarch64-none-elf" else stores_descriptor
    check_functions(say, {name: f for o in ours for name, f in o.functions.items()}, stores)
    wanted = set().union(*(o.wanted for o in objects)) - set().union(*(o.defined for o in objects))
    check_stack(say, folder, {name: f for o in objects for name, f in o.functions.items()}, wanted)


def main():
    count = tally.Tally()
    functions = header.functions()
    count.demand("the header has functions", None if functions else "none was found")
    for folder, machine in (("x86_64-linux", X86_64), ("aarch64-linux", AARCH64), ("aarch64-none-elf", AARCH64)):
        try:
            check_archive(count, folder, machine, functions)
        except (OSError, ValueError, KeyError, StopIteration, struct.error) as problem:
            count.check(folder, f"{problem!r}; ./build writes it")
    count.finish()


main()
