#!/usr/bin/env python3
"""board.py [--all]: examples/board runs on an emulated Arm board and every check of it holds; and a copy of it in which a duty of the
host is left out, or a question is put wrongly, is noticed. Wants the kit, out/ as ./build writes it, and Debian's qemu-system-arm.

With --all, also the copies that this emulator can't notice (docs/TRUST.md), and what came of each: for another emulator, or a newer one.
"""

import concurrent.futures
import os
import pathlib
import re
import shutil
import subprocess
import sys
import tempfile

import tally

HERE = pathlib.Path(__file__).resolve().parent.parent
PROCESSORS = {"max": 20000, "cortex-a72": 1000}  # 48 and 44 bits of physical address; and how many operations are tried
FEWER = 1000  # operations in a copy
ARM, BOARD = "include/pageledger_arm.h", "examples/board"
# What is left out or wrong: the file, what stands there, what stands there then, and the line that notices it.
NOTICED = [
    ("no TLBI", ARM, "tlbi vmalls12e1is", "nop", "it is refused what the library foretells, no less and no more: NO"),
    ("a report without an invalidation", ARM, "    pageledger_arm_forget(ram, ram_length, ledger, ledger_length, guest);\n    return",
     "    return", "it is refused what the library foretells, no less and no more: NO"),
    ("TLBI on this core only", ARM, "tlbi vmalls12e1is", "tlbi alle1", "the other core faults: TRANSLATION, level 3: NO"),
    ("VTCR_EL2 starts at level 1", ARM, "return PAGELEDGER_VTCR_EL2;", "return PAGELEDGER_VTCR_EL2 - (1u << 6);",
     "THEY DIFFER|UNEXPECTED"),
    ("another guest's root", ARM, "return answer[PAGELEDGER_GUEST_ROOT] | guest << 48",
     "if (guest == 2) return pageledger_arm_vttbr(ram, ram_length, ledger, ledger_length, 1);\n    "
     "return answer[PAGELEDGER_GUEST_ROOT] | guest << 48", "it is refused what|THEY DIFFER|UNEXPECTED"),
    ("a fault's address without its place in the page", ARM, "page : page | pageledger_arm_bits(fault->va, 11, 0)", "page : page + 4096",
     "THEY DIFFER"),
    ("RAM at no multiple of 8", f"{BOARD}/board.h", "(LENT_AT + PAGE", "(LENT_AT + 4 + PAGE", "two guests are set up: NO"),
    ("shared for writing", f"{BOARD}/monitor.c", ("frame, with, 0)", "with, ipa, PAGELEDGER_R)"),
     ("frame, with, 1)", "with, ipa, PAGELEDGER_RW)"),
     "it is refused what the library foretells, no less and no more: NO"),
    ("unshared without unmapping", f"{BOARD}/monitor.c", "refused = take_away(with, ipa)", "refused = 0",
     "it is refused what the library foretells, no less and no more: NO"),
    ("a page that is not cleared for its next owner", f"{BOARD}/monitor.c", "    if (rights == PAGELEDGER_RX ||",
     "    if (!bytes)\n        FRAME(frame)[0] = 1;\n    if (rights == PAGELEDGER_RX ||",
     "given to the cluster, the frame holds zeros: NO"),
    ("the processor asked for a read, the library for a write", f"{BOARD}/against_walk.c", '"s12e0w"', '"s12e0r"', "there are none: NO"),
    ("the library asked for EL1 always", f"{BOARD}/against_walk.c", "access->va, access->kind, access->el,\n",
     "access->va, access->kind, PAGELEDGER_EL1,\n", "there are none: NO"),
]
# What QEMU 7.2 does not notice: its TLB has no VMIDs, its memory is in order, it has no caches, and it tells HPFAR_EL2 always.
UNNOTICED = [
    ("TLBI under another VMID", ARM, "SET(vttbr_el2, its)", "SET(vttbr_el2, its ^ (uint64_t)5 << 48)", None),
    ("one VMID for all", ARM, "[PAGELEDGER_GUEST_ROOT] | guest << 48", "[PAGELEDGER_GUEST_ROOT]", None),
    ("no DSB before TLBI", ARM, "dsb ishst\\n tlbi vmalls", "tlbi vmalls", None),
    ("no DSB and ISB after an operation", ARM, '"dsb ish\\n isb"', '"nop"', None),
    ("no clean of data caches", ARM, "dc civac, %0", "nop // %0", None),
    ("no IC IALLUIS", ARM, "ic ialluis", "nop", None),
    ("the address of a missing permission from HPFAR_EL2", ARM, "fault->kind != PAGELEDGER_PERMISSION || fault->during", "1", None),
    ("no TLBI before set-up, nor for a guest that is gone", ARM, "tlbi alle1is", "nop", None),
]


def run(top, processor, operations):
    """The status, and what was printed."""
    ran = subprocess.run([f"{top}/{BOARD}/run", processor, str(operations)], stdin=subprocess.DEVNULL, stdout=subprocess.PIPE,
                         stderr=subprocess.STDOUT, text=True)
    return ran.returncode, ran.stdout


def shown_in_readme():
    """The lines of the board's output that README shows."""
    block = re.search(r"^    \$ examples/board/run\n((?:    .*\n)+)", (HERE / "README.md").read_text(), re.M)
    return [line[4:] for line in block[1].splitlines() if line.strip() != ".."] if block else []


def check_board(count, processor, operations, status, printed):
    """It ended with 0 and printed what it must."""
    print("\n".join(line for line in printed.splitlines() if re.match(r"  (accesses|not compared|differences)|The machine", line)))
    say = lambda what, problem: count.check(f"examples/board on {processor}: {what}", problem)
    say("ends with 0", None if status == 0 and printed.endswith("every check held\n") else f"status {status}:\n{printed[-1000:]}")
    faults, agree = printed.count("\n    machine: "), printed.count(": they agree\n")
    say("each fault as the library says", None if faults == agree > 10 else f"{faults} faults, {agree} as the library says")
    none = f"{operations} random operations" in printed and "  differences: 0\n" in printed
    say("the machine and the walk differ nowhere", None if none else "they do, or were not compared")
    numbers = "".join(line + "\n" for line in printed.splitlines() if re.match("(walks|operations) ", line))
    say("tests/digest.c", tally.first_difference(numbers.encode(), (HERE / "tests/digest.numbers").read_bytes()))


def copied(room):
    """The parts of the tree that the board is made of."""
    for part in (BOARD, "include"):
        shutil.copytree(HERE / part, f"{room}/{part}")
    os.symlink(HERE / "tests", f"{room}/tests")
    os.symlink(HERE / "out", f"{room}/out")


def tried(mutant):
    """The status of a copy with an edit, and what it printed; or why there is none."""
    _, file, old, new, _ = mutant
    with tempfile.TemporaryDirectory() as room:
        copied(room)
        path = pathlib.Path(room, file)
        text = path.read_text()
        for a, b in zip([old] if isinstance(old, str) else old, [new] if isinstance(new, str) else new):
            if text.count(a) != 1:
                return None, f"{file} has {a!r} {text.count(a)} times"
            text = text.replace(a, b)
        path.write_text(text)
        return run(room, "max", FEWER)


def check_boards(count, ran):
    """Both processors; and README shows lines that the first of them printed."""
    for (processor, operations), made in zip(PROCESSORS.items(), ran):
        check_board(count, processor, operations, *made)
    shown, printed = shown_in_readme(), ran[0][1].splitlines()
    lost = [line for line in shown if line not in printed]
    count.check("what README shows of it", None if shown and not lost else f"README shows {lost or 'nothing'}")


def check_copies(count, ran):
    for (what, _, _, _, line), (status, printed) in zip(NOTICED, ran):
        good = status and re.search(line, printed)
        count.check(f"noticed: {what}", None if good else f"status {status}: {printed[-300:]}")


def main(words):
    if words not in ([], ["--all"]):
        sys.exit(__doc__)
    count = tally.Tally()
    with concurrent.futures.ThreadPoolExecutor(os.cpu_count()) as pool:
        boards = [pool.submit(run, HERE, *how) for how in PROCESSORS.items()]
        copies = [pool.submit(tried, mutant) for mutant in NOTICED]
        others = [pool.submit(tried, mutant) for mutant in (UNNOTICED if words else [])]
        check_boards(count, [board.result() for board in boards])
        check_copies(count, [copy.result() for copy in copies])
        for (what, *_), (status, printed) in zip(UNNOTICED, [other.result() for other in others]):
            print(f"{'not noticed' if status == 0 else 'NOTICED'}: {what}: {printed.splitlines()[-1]}")
    count.finish()


main(sys.argv[1:])
