#!/usr/bin/env python3
"""golden.py PROGRAM [WORD...]: runs it on every NAME.script of scripts/ and emulator/ and holds its output to NAME.expected."""

import pathlib
import subprocess
import sys

import tally

HERE = pathlib.Path(__file__).parent


def check(program, script):
    expected = script.with_suffix(".expected")
    if not (script.exists() and expected.exists()):
        return "one file of the pair is missing"
    return tally.problem([*program, str(script)], expected.read_bytes(), stdin=subprocess.DEVNULL)


def main(program):
    count = tally.Tally()
    names = {file.with_suffix(".script") for end in ("script", "expected") for file in HERE.glob(f"*/*.{end}")}
    for script in sorted(names):
        count.check(script.relative_to(HERE), check(program, script))
    count.finish()


main(sys.argv[1:])
