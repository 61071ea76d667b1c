#!/usr/bin/env python3
"""input.py PROGRAM [WORD...]: input that a golden file can't show well: bytes, lengths, ends of files.

Each case is a script and what must come back; the program gets it as a file, and must end with status 0.
"""

import pathlib
import subprocess
import sys
import tempfile

import tally

SETUP = b"setup 16 0x40000000 0\n"
PEEK = b"peek 0x40000000"  # of RAM that is all zero
ZERO = "0x0000000000000000\n"
LONG, TEXT = "error: line too long\n", "error: not text\n"
EXPECTED, LARGE = "error: number expected\n", "error: number too large\n"
FREE = "".join(f"{f} free\n" for f in range(16))
MONITORS = "".join(f"{f} monitor\n" for f in range(1023))
NO_TEXT = [byte for byte in range(256) if not 32 <= byte < 127 and byte not in b"\t\n"]

CASES = {
    "an empty file": (b"", ""),
    "a newline": (b"\n", ""),
    "empty lines": (b"\n" * 1000, ""),
    "only comments": (b"# one\n  # two\n#\n", ""),
    "a comment with no last newline": (b"# one", ""),
    "a space with no last newline": (b" ", ""),
    "no last newline": (SETUP + PEEK, "0\n" + ZERO),
    "a bad last line with no newline": (SETUP + PEEK + b"\npeek", "0\n" + ZERO + "error: too few words\n"),
    # lengths: 4,095 bytes are a line, 4,096 are too long, and the next line is read as ever
    "4,095 bytes": (SETUP + PEEK.ljust(4095) + b"\n" + PEEK, "0\n" + ZERO * 2),
    "4,096 bytes": (SETUP + PEEK.ljust(4096) + b"\n" + PEEK, "0\n" + LONG + ZERO),
    "4,097 bytes": (SETUP + PEEK.ljust(4097) + b"\n" + PEEK, "0\n" + LONG + ZERO),
    "8,192 bytes": (SETUP + PEEK.ljust(8192) + b"\n" + PEEK, "0\n" + LONG + ZERO),
    "10,000 bytes": (SETUP + PEEK.ljust(10000) + b"\n" + PEEK, "0\n" + LONG + ZERO),
    "a command behind 4,096 spaces": (SETUP + b" " * 4096 + PEEK + b"\n" + PEEK, "0\n" + LONG + ZERO),
    "4,095 bytes and no newline": (SETUP + PEEK.ljust(4095), "0\n" + ZERO),
    "4,096 bytes and no newline": (SETUP + PEEK.ljust(4096), "0\n" + LONG),
    "a million bytes and no newline": (SETUP + b"x" * 1000000, "0\n" + LONG),
    "a comment of 4,095 bytes": (b"#" * 4095 + b"\n", ""),
    "a comment of 4,096 bytes": (b"#" * 4096 + b"\n", LONG),
    "4,095 spaces": (b" " * 4095 + b"\n", ""),
    "4,096 bytes that are no text": (b"\xff" * 4096 + b"\n", LONG),
    "long lines, one after the other": ((b"x" * 5000 + b"\n") * 20 + PEEK, LONG * 20 + "refused\n"),
    "100,000 lines": (b"peek 0\n" * 100000, "refused\n" * 100000),
    # words
    "a word of 4,095 letters": (b"a" * 4095, "error: unknown command\n"),
    "a command with 4,000 letters behind it": (b"peek" + b"k" * 4000, "error: unknown command\n"),
    "a number of 4,000 digits": (b"peek " + b"9" * 4000, LARGE),
    "a number of 4,000 digits and a letter": (b"peek " + b"9" * 4000 + b"a", EXPECTED),
    "4,000 zeros and a one": (b"peek " + b"0" * 4000 + b"1", "refused\n"),
    "0x, 4,000 zeros and a one": (b"peek 0x" + b"0" * 4000 + b"1", "refused\n"),
    "0x and 4,000 digits": (b"peek 0x" + b"f" * 4000, LARGE),
    "an access of 4,000 letters": (b"stage2 0 0 " + b"r" * 4000, "error: access is r, w or x\n"),
    "2,000 words": (b"peek " + b"0 " * 2000, "error: too many words\n"),
    "ledger and 2,000 words": (b"ledger" + b" 0" * 2000, "error: too many words\n"),
    # the ledger: the only command that prints more than a line
    "the ledger, with no last newline": (SETUP + b"ledger", "0\n" + FREE),
    "a thousand ledgers": (SETUP + b"ledger\n" * 1000, "0\n" + FREE * 1000),
    "the ledger of 1,024 frames": (b"setup 1024 0 1023\nledger\n", "0\n" + MONITORS + "1023 free\n"),
    "100,000 operations": (SETUP + b"create 5\ninvalidated 1\n" * 50000, "0\n" + "1\n0\n" * 50000),
    # bytes that are no text
    "each such byte alone": (b"".join(b"%c\n" % byte for byte in NO_TEXT if byte != 13), TEXT * (len(NO_TEXT) - 1)),
    "each in a word": (b"".join(b"pe%cek 0\n" % byte for byte in NO_TEXT), TEXT * len(NO_TEXT)),
    "each in a number": (b"".join(b"peek 0%c1\n" % byte for byte in NO_TEXT), TEXT * len(NO_TEXT)),
    "each in a comment": (b"".join(b"# %c\n" % byte for byte in NO_TEXT), ""),
    "a NUL behind a command": (b"peek 0\0\n", TEXT),
    "a NUL before a command": (b"\0peek 0\n", TEXT),
    "a NUL and no newline": (b"\0", TEXT),
    "NUL bytes": (b"\0" * 5000, LONG),
    "a byte order mark": (b"\xef\xbb\xbfpeek 0\n", TEXT),
    "digits of another script": ("peek \u0663\n".encode(), TEXT),
    "a space that does not break": ("peek\u00a00\n".encode(), TEXT),
    "16-bit text": ("peek 0\n".encode("utf-16-le"), TEXT * 2),
    "bad text changes nothing": (SETUP + b"word 0x40000000 \xff1\nsetup 17\0 0 0\n" + PEEK, "0\n" + TEXT * 2 + ZERO),
    # carriage returns: one at the end of a line is passed over
    "lines that end in CR and LF": (SETUP.replace(b"\n", b"\r\n") + b"\r\n# one\r\n" + PEEK + b"\r\n", "0\n" + ZERO),
    "a CR at the end of the file": (SETUP + PEEK + b"\r", "0\n" + ZERO),
    "two CR at the end of a line": (b"peek 0\r\r\n", TEXT),
    "a CR before a comment": (b"peek 0\r# one\n", TEXT),
    "lines that end in CR alone": (b"peek 0\rpeek 0\r", TEXT),
    "4,095 bytes with a CR": (SETUP + PEEK.ljust(4094) + b"\r\n", "0\n" + ZERO),
    "4,096 bytes with a CR": (SETUP + PEEK.ljust(4095) + b"\r\n", "0\n" + LONG),
}


def main(program):
    count = tally.Tally()
    with tempfile.TemporaryDirectory() as folder:
        file = pathlib.Path(folder) / "input.script"
        for name, (script, expected) in CASES.items():
            file.write_bytes(script)
            count.check(name, tally.problem([*program, str(file)], expected.encode(), stdin=subprocess.DEVNULL))
    count.finish()


main(sys.argv[1:])
