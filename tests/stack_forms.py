#!/usr/bin/env python3
"""stack_forms.py: tests/stack.py notices each form in which code moves the stack pointer, on small made-up functions."""

import stack
import tally

# Instructions that these functions are made of, as an assembler writes them.
WORDS = {
    "sub sp, sp, #16": 0xd10043ff,
    "sub sp, sp, #1, lsl #12": 0xd14007ff,
    "add sp, sp, #16": 0x910043ff,
    "add sp, sp, #1, lsl #12": 0x914007ff,
    "str x30, [sp, #-16]!": 0xf81f0ffe,
    "ldr x30, [sp], #16": 0xf84107fe,
    "str q0, [sp, #-16]!": 0x3c9f0fe0,
    "ldr q0, [sp], #16": 0x3cc107e0,
    "stp w1, w2, [sp, #-16]!": 0x29be0be1,
    "stp x29, x30, [sp, #-32]!": 0xa9be7bfd,
    "ldp x29, x30, [sp], #32": 0xa8c27bfd,
    "stp d9, d8, [sp, #-16]!": 0x6dbf23e9,
    "ldp d9, d8, [sp], #16": 0x6cc123e9,
    "stp q9, q8, [sp, #-32]!": 0xadbf23e9,
    "ldp q9, q8, [sp], #32": 0xacc123e9,
    "stgp x0, x1, [sp, #-32]!": 0x69bf07e0,
    "stp x29, x30, [sp, #16]": 0xa9017bfd,
    "str x9, [sp, #8]": 0xf90007e9,
    "add x0, sp, #8": 0x910023e0,
    "cmp sp, #16": 0xf10043ff,
    "cmp x9, #16": 0xf100413f,
    "mov x29, sp": 0x910003fd,
    "add x29, sp, #16": 0x910043fd,
    "mov x29, x9": 0xaa0903fd,
    "ldr x29, [sp, #8]": 0xf94007fd,
    "mov sp, x29": 0x910003bf,
    "sub sp, x29, #16": 0xd10043bf,
    "mov sp, x9": 0x9100013f,
    "add sp, x9, #16": 0x9100413f,
    "sub sp, sp, x9": 0xcb2963ff,
    "add sp, sp, x9": 0x8b2963ff,
    "and sp, x9, #-16": 0x927ced3f,
    "orr sp, x9, #1": 0xb240013f,
    "eor sp, x9, #1": 0xd240013f,
    "addg sp, sp, #16, #1": 0x918107ff,
    "irg sp, sp": 0x9adf13ff,
    "st1 {v0.2d}, [sp], #16": 0x4c9f7fe0,
    "stg sp, [sp], #16": 0xd92017ff,
    "ldraa x0, [sp, #-16]!": 0xf87fefe0,
    "addvl sp, sp, #-1": 0x043f57ff,
    "msr sp_el0, x0": 0xd5184100,
    "msr spsel, #1": 0xd50041bf,
    "cbz x0, 2": 0xb4000040,
    "b.eq 2": 0x54000040,
    "tbz x0, #3, 2": 0x36180040,
    "b 2": 0x14000002,
    "b -2": 0x17fffffe,
    "bl": 0x94000000,
    "b": 0x14000000,
    "br x9": 0xd61f0120,
    "blr x9": 0xd63f0120,
    "brk #1": 0xd4200020,
    "udf #0": 0x00000000,
    "ret": 0xd65f03c0,
}
TAKE, BACK = "sub sp, sp, #16", "add sp, sp, #16"

# A function, line by line, and how many bytes of stack it takes. 'bl f' and 'b f' name the function f.
DEPTHS = [
    (["ret"], 0),
    ([TAKE, BACK, "ret"], 16),
    ([TAKE, TAKE, BACK, BACK, "ret"], 32),
    (["sub sp, sp, #1, lsl #12", "add sp, sp, #1, lsl #12", "ret"], 4096),
    (["str x30, [sp, #-16]!", "ldr x30, [sp], #16", "ret"], 16),
    (["str q0, [sp, #-16]!", "ldr q0, [sp], #16", "ret"], 16),
    (["stp w1, w2, [sp, #-16]!", BACK, "ret"], 16),
    (["stp x29, x30, [sp, #-32]!", "ldp x29, x30, [sp], #32", "ret"], 32),
    (["stp d9, d8, [sp, #-16]!", "ldp d9, d8, [sp], #16", "ret"], 16),
    (["stp q9, q8, [sp, #-32]!", "ldp q9, q8, [sp], #32", "ret"], 32),
    (["stgp x0, x1, [sp, #-32]!", BACK, BACK, "ret"], 32),
    # these leave the stack pointer where it is
    (["stp x29, x30, [sp, #16]", "str x9, [sp, #8]", "add x0, sp, #8", "cmp sp, #16", "cmp x9, #16", "ret"], 0),
    # the frame is given back by x29
    (["stp x29, x30, [sp, #-32]!", "mov x29, sp", TAKE, "mov sp, x29", "ldp x29, x30, [sp], #32", "ret"], 48),
    ([TAKE, TAKE, "add x29, sp, #16", TAKE, "sub sp, x29, #16", BACK, BACK, "ret"], 48),
    # two ways that meet again; one that stops; a loop; a jump over
    (["cbz x0, 2", "udf #0", TAKE, BACK, "ret"], 16),
    ([TAKE, "b.eq 2", "brk #1", BACK, "ret"], 16),
    ([TAKE, "cmp x9, #16", "tbz x0, #3, 2", "b -2", BACK, "ret"], 16),
    (["b 2", TAKE, "ret"], 0),
    # calls: where the stack pointer stands then, and what the callee takes
    (["bl sixteen", "ret"], 16),
    ([TAKE, "bl sixteen", BACK, "ret"], 32),
    (["bl sixteen", TAKE, TAKE, TAKE, BACK, BACK, BACK, "ret"], 48),
    (["bl between", "bl sixteen", "ret"], 32),
    ([TAKE, BACK, "b between"], 32),
    ([TAKE, "bl elsewhere", BACK, "ret"], 16),
]
OTHERS = {
    "sixteen": [TAKE, BACK, "ret"],
    "between": [TAKE, "bl sixteen", BACK, "ret"],
    "again": ["bl by_way_of", "ret"],
    "by_way_of": ["b again"],
}
# A function, and what is wrong with it.
FAULTS = [
    *(([form, "ret"], "the stack pointer") for form in (
        "sub sp, sp, x9", "add sp, sp, x9", "and sp, x9, #-16", "orr sp, x9, #1", "eor sp, x9, #1", "addg sp, sp, #16, #1", "irg sp, sp",
        "st1 {v0.2d}, [sp], #16", "stg sp, [sp], #16", "ldraa x0, [sp, #-16]!")),
    *(([form, "ret"], "sets the stack pointer from") for form in ("mov sp, x9", "add sp, x9, #16", "mov sp, x29", "sub sp, x29, #16")),
    *((["mov x29, sp", form, "mov sp, x29", "ret"], "sets the stack pointer from x29") for form in ("mov x29, x9", "ldr x29, [sp, #8]")),
    (["addvl sp, sp, #-1", "ret"], "no fixed size"),
    (["msr sp_el0, x0", "ret"], "another stack pointer"),
    (["msr spsel, #1", "ret"], "another stack pointer"),
    (["br x9"], "a register"),
    (["blr x9", "ret"], "a register"),
    (["bl"], "without a name"),
    (["bl nowhere", "ret"], "nowhere is not there"),
    (["bl again", "ret"], "a recursion"),
    (["bl self", "ret"], "a recursion"),
    ([TAKE, "ret"], "leaves with 16 bytes taken"),
    ([TAKE, "b sixteen"], "leaves with 16 bytes taken"),
    ([BACK, "ret"], "more of the stack than was taken"),
    (["cbz x0, 2", TAKE, "ret"], "two ways meet at depths"),
    ([TAKE, "b -2"], "a way leaves the function"),
    ([TAKE, BACK], "a way leaves the function"),
]


def function(lines):
    words, calls = [], {}
    for at, line in enumerate(lines):
        if line not in WORDS:
            line, calls[at] = line.split()
        words.append(WORDS[line])
    return stack.Function(words, calls)


def found(lines):
    functions = {name: function(others) for name, others in {**OTHERS, "self": lines}.items()}
    try:
        return stack.deepest(functions, "self", outside={"elsewhere"})[0]
    except stack.Fault as why:
        return str(why)


def main():
    count = tally.Tally()
    for lines, depth in DEPTHS:
        got = found(lines)
        count.check("; ".join(lines), None if got == depth else f"{got}, and not {depth}")
    for lines, says in FAULTS:
        got = found(lines)
        count.check("; ".join(lines), None if says in str(got) else f"{got}, and not '{says}'")
    unused = set(WORDS) - {line if line in WORDS else line.split()[0] for lines, _ in DEPTHS + FAULTS for line in lines}
    count.demand("each instruction is used", ", ".join(sorted(unused)) or None)
    count.finish()


main()
