#!/usr/bin/env python3
"""pages.py: tools/assurance, architecture, repeats and figures notice what they should, on a small tree of their own. Wants git."""

import pathlib
import shutil
import subprocess
import tempfile

import tally

HEAD = "| no. | sentence | statement | code | noticed by |\n|---|---|---|---|---|\n"
MORE = "| 2 | it reads | `low/specs/Word: wordAt` | `low::read::word` | none |"
TOOLS = pathlib.Path(__file__).resolve().parent.parent / "tools"
ROW = ("| 1 | it ends | `low/specs/Word: wordAt`, `low/proofs/Theorems/Ends: ends`, TRUST 2 | `low::read::word` "
       "| `low/must-fail/wrong`, `tests/it.py: first` |")
TREE = {
    "crates.txt": "low:\nhigh: low\n",
    "crates/low/src/lib.rt": "// What is low.\npub mod read;\n",
    "crates/low/src/read.rt": "// A word.\npub fn word(at: u64) -> u64\n    ensures { result ≡ wordAt at }\n{\n    at\n}\n",
    "crates/low/specs/Word.antt": "-- a word\nunfoldable pub wordAt : ℕ → ℕ\nwordAt at = at\n",
    "crates/low/proofs/Theorems/Ends.antt": "-- it ends\npub ends : (at : ℕ) → wordAt at ≡ at\nends at = refl\n",
    "crates/low/proofs/read/word/Answers.antt":
        "use Rattle.low.proofs.read.word.Goals as goal\n\npub returns : goal.returns\nreturns c = refl\n",
    "crates/low/must-fail/wrong.edit": "file: src/read.rt\n",
    "crates/high/src/main.rt": "// A program.\nfn main() {\n    low::read::word(1);\n}\n",
    "tests/it.py": "def first():\n    pass\n",
    "docs/TRUST.md": "# Trust\n\n## 2. The kit\n",
    "examples/one.c": "int main(void)\n{\n    return 0;\n}\n",
    "README.md": "# Page\n\nSee [trust](docs/TRUST.md#2-the-kit).\n\n```c\nreturn 0;\n```\n\n| where |\n|---|\n| `low::read::word` |\n",
    "include/pageledger.h": "enum pageledger_refusal {\n    PAGELEDGER_NO_FRAME = 4\n};\n",
    "docs/REFERENCE.md": "# Page\n\n| no. | name |\n|---|---|\n| 4 | NO_FRAME |\n",
    "docs/assurance/low.md": f"# Page\n\n{HEAD}{ROW}\n",
    "docs/assurance/more.md": f"# Page\n\n{HEAD}{MORE}\n",
    "docs/DECISIONS.md": "# Page\n\n### 1. What repeats, and stays\nNothing.\n\n## End\n",
    "docs/ARCHITECTURE.md": "# Page\n\n| step | code |\n|---|---|\n| 1 | `low::read::word` |\n| 2 | `crates/low`, `crates/high` |\n",
}
# Crates of three bands, of which each uses the next.
BANDS = {
    "crates.txt": "memory:\nmonitor: memory\nscript: monitor\n",
    "crates/memory/src/lib.rt": "// A word.\npub fn word() {\n}\n",
    "crates/monitor/src/lib.rt": "// A monitor.\npub fn map() {\n    memory::word();\n}\n",
    "crates/script/src/lib.rt": "// A line.\npub fn line() {\n    monitor::map();\n}\n",
    "docs/TRUST.md": "",
}
# What is done to these, and what tools/architecture --check then says.
BAND_FAULTS = [
    ("crates/script/src/lib.rt", "monitor::map();", "", "is not what the crates give"),
    ("crates/script/src/lib.rt", "monitor::map();", "monitor::map();\n    memory::word();", "is not what the crates give"),
    ("crates/memory/src/lib.rt", "// A word.", "// A byte.", "is not what the crates give"),
    ("crates/memory/src/lib.rt", "() {", "() {\n    script::line();", "memory uses script, which is in a band above it"),
    ("crates.txt", "script: monitor\n", "", "crates.txt and the folder crates differ in script"),
]
# What is done to the tree (a file, what stands there, what stands there then), and what tools/assurance then says.
FAULTS = [
    ("docs/assurance/low.md", "Word: wordAt", "Word: wordIn", "no wordIn there"),
    ("docs/assurance/low.md", "low/specs/Word", "low/specs/Wort", "no such file"),
    ("docs/assurance/low.md", "| `low::read::word`", "| `low::read::words`", "no such function"),
    ("docs/assurance/low.md", "must-fail/wrong", "must-fail/right", "no such edit"),
    ("docs/assurance/low.md", "it.py: first", "it.py: second", "no second there"),
    ("docs/assurance/low.md", "tests/it.py", "tests/that.py", "no such file"),
    ("docs/assurance/low.md", "TRUST 2", "TRUST 3", "no such section"),
    ("docs/assurance/low.md", ROW, f"{ROW}\n{ROW}", "stands twice"),
    ("docs/assurance/low.md", "| it ends |", "| |", "a cell is empty"),
    ("docs/assurance/low.md", ROW, "| 1 | it ends | by luck | none | none |", "nothing carries it"),
    ("docs/assurance/low.md", ROW, "| 1 | it ends | it does | `low::read::word` | none |", "a theorem that no row names"),
    ("docs/ARCHITECTURE.md", "read::word", "read::worse", "no such function"),
    ("docs/ARCHITECTURE.md", "crates/low", "crates/deep", "no such crate"),
    ("docs/ARCHITECTURE.md", ", `crates/high`", "", "crates/high: a crate that docs/ARCHITECTURE.md does not name"),
    ("crates/low/src/read.rt", "pub fn word", "pub fn byte() {\n}\n\npub fn word", "low::read::byte: a public function that no row names"),
    ("crates/low/src/read.rt", "pub fn word", "pub fn words", "no such function"),
    ("crates/low/proofs/Theorems/Ends.antt", "ends", "stops", "no ends there"),
    ("docs/assurance/more.md", "| 2 |", "| 1 |", "number 1 stands twice"),
    ("docs/assurance/more.md", "it reads", "it reads " + "on " * 80, "characters; 300 are the most"),
    ("docs/TRUST.md", "2.", "1.", "no such section"),
    ("docs/REFERENCE.md", "| 4 |", "| 5 |", "refusal 5, NO_FRAME: docs/REFERENCE.md or include/pageledger.h does not have it"),
    ("include/pageledger.h", "= 4", "= 4,\n    PAGELEDGER_NO_GUEST = 5", "refusal 5, NO_GUEST: docs/REFERENCE.md or include"),
    ("README.md", "`low::read::word`", "`low::read::lost`", "no such function"),
    ("README.md", "docs/TRUST.md", "docs/LOST.md", "a link to docs/LOST.md#2-the-kit, which is not there"),
    ("README.md", "#2-the-kit", "#3-the-kit", "a link to docs/TRUST.md#3-the-kit, which has no such heading"),
    ("docs/assurance/low.md", "# Page", "# [Page](low.rst)", "a link to low.rst, which is not there"),
    ("README.md", "return 0;", "return 1;", "a line of c that is not in examples/: return 1;"),
]


def made(room, tree=TREE):
    """A small tree, with today's tools."""
    for file, text in tree.items():
        path = pathlib.Path(room, file)
        path.parent.mkdir(parents=True, exist_ok=True)
        path.write_text(text, encoding="utf-8")
    pathlib.Path(room, "tools").mkdir()
    for tool in ("assurance", "architecture", "repeats", "figures"):
        shutil.copy(TOOLS / tool, f"{room}/tools")


def run(room, *words):
    ran = subprocess.run([f"{room}/tools/{words[0]}", *words[1:]], capture_output=True, text=True)
    return ran.returncode, ran.stdout + ran.stderr


def edited(room, file, old, new):
    path = pathlib.Path(room, file)
    path.write_text(path.read_text(encoding="utf-8").replace(old, new), encoding="utf-8")


def wants(ran, status, text):
    """What is wrong with a run that must end so and say so."""
    if ran[0] != status or text not in ran[1]:
        return f"ended with {ran[0]} and said {ran[1]!r}, and not {status} and {text!r}"
    return None


def check_assurance(count):
    with tempfile.TemporaryDirectory() as room:
        made(room)
        count.check("a page that is right", wants(run(room, "assurance"), 0, "stand for something, 0 things are wrong"))
    for file, old, new, says in FAULTS:
        with tempfile.TemporaryDirectory() as room:
            made(room)
            edited(room, file, old, new)
            count.check(f"{file}: {new[:40]}", wants(run(room, "assurance"), 1, says))
    with tempfile.TemporaryDirectory() as room:
        made(room)
        shutil.move(f"{room}/crates/low/src/read.rt", f"{room}/crates/low/src/fetch.rt")
        count.check("a function that moved", wants(run(room, "assurance"), 1, "no such function"))
        count.check("its row corrected", wants(run(room, "assurance", "--correct"), 0, "low::read::word is now low::fetch::word"))
    with tempfile.TemporaryDirectory() as room:
        made(room)
        pathlib.Path(room, "tests/more").mkdir()
        shutil.move(f"{room}/tests/it.py", f"{room}/tests/more/it.py")
        count.check("a test that moved", wants(run(room, "assurance", "--correct"), 0, "tests/it.py: first is now tests/more/it.py: first"))


def check_architecture(count):
    with tempfile.TemporaryDirectory() as room:
        made(room, BANDS)
        count.check("no picture", wants(run(room, "architecture", "--check"), 1, "is not what the crates give"))
        count.check("a picture", wants(run(room, "architecture"), 0, "wrote"))
        count.check("today's picture", wants(run(room, "architecture", "--check"), 0, "is what the crates give"))
        picture = pathlib.Path(room, "docs/architecture.svg").read_text(encoding="utf-8")
        names = [name for name in ("memory", "monitor", "script") if picture.count(f'class="name">{name}<') != 1]
        count.check("its crates", f"not once: {names}" if names else None)
        arrows = picture.count("marker-end") - 1, picture.count("<circle") - 1  # but for the legend's
        count.check("its arrows", None if arrows == (2, 2) else f"{arrows} arrows and dots")
    for file, old, new, says in BAND_FAULTS:
        with tempfile.TemporaryDirectory() as room:
            made(room, BANDS)
            run(room, "architecture")
            edited(room, file, old, new)
            count.check(f"{file}: {new}", wants(run(room, "architecture", "--check"), 1, says))
    with tempfile.TemporaryDirectory() as room:
        made(room)
        count.check("a crate of no band", wants(run(room, "architecture"), 1, "low stands in no band"))


def check_repeats(count):
    with tempfile.TemporaryDirectory() as room:
        made(room)
        count.check("nothing repeats", wants(run(room, "repeats", "15"), 0, "0 things are wrong"))
        word = TREE["crates/low/src/read.rt"].partition("\n")[2]
        edited(room, "crates/low/src/read.rt", word, f"{word}\n{word.replace('word', 'half').replace('at', 'place')}")
        count.check("a function twice", wants(run(room, "repeats", "15"), 1, "low/src/read.rt: word\n    low/src/read.rt: half"))
        edited(room, "docs/DECISIONS.md", "Nothing.", "Short: `low/src/read.rt: word` and `low/src/read.rt: half`.")
        count.check("with its reason", wants(run(room, "repeats", "15"), 0, "1 that repeat have their reason, 0 things are wrong"))
        edited(room, "crates/low/src/read.rt", "place", "half(place)")
        stale = "a reason for low/src/read.rt: half, which does not repeat"
        count.check("a reason gone stale", wants(run(room, "repeats", "15"), 1, stale))


def check_figures(count):
    with tempfile.TemporaryDirectory() as room:
        made(room)
        commit = ["git", "-C", room, "-c", "user.name=n", "-c", "user.email=e", "commit", "-qam"]
        for command in (["git", "-C", room, "init", "-q"], ["git", "-C", room, "add", "."], [*commit, "first"]):
            subprocess.run(command, check=True)
        count.check("figures", wants(run(room, "figures"), 0, "| low | 4 | 1 | 2 | 4 | 1 | 1 | ? | ? |"))
        edited(room, "crates/low/proofs/read/word/Answers.antt", "refl", "sym refl")
        subprocess.run([*commit, "second"], check=True)
        repaired = "- low/proofs/read/word/Answers.antt: 1 came and 1 went"
        count.check("a proof repaired", wants(run(room, "figures", "HEAD~1..HEAD"), 0, repaired))


def main():
    count = tally.Tally()
    check_assurance(count)
    check_architecture(count)
    check_repeats(count)
    check_figures(count)
    count.finish()


main()
