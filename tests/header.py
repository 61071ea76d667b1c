"""header.py: what include/pageledger.h, as ./build wrote it to out/, has in it: functions, and numbers by their names."""

import pathlib
import re

HEADER = pathlib.Path(__file__).resolve().parent.parent / "out/include/pageledger.h"


def text():
    """The header without its comments."""
    return re.sub(r"/\*.*?\*/", "", HEADER.read_text(), flags=re.S)


def functions():
    """The functions of the library; one that is compiled into the program that calls it is not among them."""
    inline = set(re.findall(r"^static inline .*\b(pageledger_\w+)\(", text(), re.M))
    return set(re.findall(r"\b(pageledger_\w+)\(", text())) - inline


def numbers(enum=r"\w+"):
    """The enumerators, without their prefix: of all enums, or of those whose names match."""
    bodies = re.findall(rf"enum pageledger_(?:{enum}) {{(.*?)}};", text(), re.S)
    return {name: int(value) for body in bodies for name, value in re.findall(r"PAGELEDGER_(\w+) = (\d+)", body)}
