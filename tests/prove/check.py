#!/usr/bin/env python3
"""Checks of tools/prove without the kit: the Lts and Tie of a function, cut to what the tool reads, with answers and
the proof that they give."""

import contextlib
import importlib.machinery
import importlib.util
import io
import os
import pathlib
import shutil
import sys
import tempfile

HERE = pathlib.Path(__file__).resolve().parent
sys.path.insert(0, str(HERE.parent))
import tally

LOADER = importlib.machinery.SourceFileLoader("prove", str(HERE.parent.parent / "tools" / "prove"))
prove = importlib.util.module_from_spec(importlib.util.spec_from_loader("prove", LOADER))
LOADER.exec_module(prove)

SOURCE = "fn level_2(m: &[u8], left: u64) -> Step ensures { λ r. ⌜ r ≡ step2 (now (m .entry)) left ⌝ } { .. }\n"
ENSURED = prove.contracts([("mmu", SOURCE)])
ANSWERS = (HERE / "answers").read_text()
# A call of span, between the loop's head and the call of level_2.
CALL = """
        After-span·own = Called.Called ps·0 r·0 (claims· .1) T8 (

      pub record After-span : Type 0 where
        pub before : At-loop
        pub span : After-span·own before
"""


def places(change=lambda lts: lts):
    with tempfile.TemporaryDirectory() as folder:
        (pathlib.Path(folder) / "Lts.antt").write_text(change((HERE / "Lts.txt").read_text()))
        shutil.copy(HERE / "Tie.txt", f"{folder}/Tie.antt")
        got = prove.places_of_checker(folder)
    got.loops["loop"] = "m b root access ia left₀ table₀ left table"
    return got


def written(answers=ANSWERS, at=None):
    return prove.written("mmu", "walk_2", prove.Answers(answers), at or places(), ENSURED)


def kept():
    """A problem where the file `places` does not keep what the checker told."""
    told = places()
    for test in prove.TESTS:
        told.at["Then1"] = told.at["Then1"]._replace(test=test)
        if vars(prove.places_of_text(told.text())) != vars(told):
            return f"not those with a test by {test}"
    return None


def added_call():
    """A problem unless a call that is added lengthens the paths that cross it, and no other."""
    moved = lambda lts: lts.replace("        pub before : At-loop\n", "        pub before : After-span\n") + CALL
    got = written(at=places(moved))
    for path in ("c .before .before .before .level-2 .ensures", "c .before .before .before .before .before .loop .inv"):
        if f"({path}" not in got:
            return f"no {path}"
    return None


def refused(answers, message):
    """A problem unless the answers are refused with these words."""
    try:
        written(answers)
    except prove.Wrong as why:
        return None if message in str(why) else f"said {why}"
    return "taken"


def noticed(change):
    """A problem unless --check passes a written proof, and fails once it is changed. The layout is left to the kit."""
    prove.laid_out = lambda texts: (texts, "")
    with tempfile.TemporaryDirectory() as folder, contextlib.redirect_stdout(io.StringIO()) as said:
        proofs = pathlib.Path(folder) / "crates" / "mmu" / "proofs" / "walk_2"
        proofs.mkdir(parents=True)
        (proofs.parent.parent / "src").mkdir()
        (proofs.parent.parent / "src" / "lib.rt").write_text(SOURCE)
        (pathlib.Path(folder) / "crates.txt").write_text("mmu:\n")
        for name, text in (("answers", ANSWERS), ("places", places().text()), ("Proof.antt", written())):
            (proofs / name).write_text(text)
        os.chdir(folder)
        before, _, after = prove.main(["--check"]), change(proofs), prove.main(["--check"])
        os.chdir(HERE)
    return None if (before, after) == (True, False) else said.getvalue()


def equations(clause, expected):
    got = prove.equations(clause)
    return None if got == expected else f"{got}"


def main():
    count = tally.Tally()
    count.check("a proof", tally.first_difference(written().encode(), (HERE / "Proof.txt").read_bytes()))
    count.check("places", kept())
    count.check("an added call", added_call())
    count.check("an edited proof", noticed(lambda proofs: (proofs / "Proof.antt").write_text(written() + "\n")))
    count.check("an edited answer", noticed(lambda proofs: (proofs / "answers").write_text(ANSWERS + "sub-left = ?\n")))
    count.check("no answers", noticed(lambda proofs: (proofs / "answers").unlink()))
    count.check("no proof", noticed(lambda proofs: (proofs / "Proof.antt").unlink()))
    count.check("no such need", refused(ANSWERS + "returns-9 = ?\n", "no need returns-9 among loop-holds, "))
    count.check("no such place", refused(ANSWERS + "sub-left = «put» .ensures\n", "sub-left: no «put» among done, "))
    count.check("no such fact", refused(ANSWERS + "sub-left = simp («facts: not put»)\n", "no put among shared-slice"))
    count.check("no measure", refused(ANSWERS.replace("μ-loop = left\n", ""), "no μ-loop, which a loop wants"))
    count.check("arguments", refused(ANSWERS.replace("μ-loop =", "μ-loop m b ="), "μ-loop has the arguments m b "))
    count.check("no type", refused(ANSWERS + "lemma x = y\n", "`lemma x = y` is no answer"))
    count.check("a product", equations(["λ r. ⌜ (r ≡ f x) × (r < 2 ^ 9) ⌝"], ["←.0"]))
    count.check("two clauses", equations(["λ _. ⌜ Ok n ⌝", "λ _. ⌜ op s ≡ done (now (l .exit)) ⌝"], ["→.1"]))
    count.check("no equation", equations(["λ r. ⌜ (r ≡ x → ⊥) ⌝"], []))
    count.finish()


main()
