#!/usr/bin/env python3
"""Checks of the command ./pageledger itself: the tour, its ways to take a script, its pictures, its refusals, its build; and of --help
of all four."""

import pathlib
import re
import shutil
import subprocess
import tempfile
import textwrap
import xml.etree.ElementTree

import tally

HERE = pathlib.Path(__file__).resolve().parent
COMMAND = HERE.parent / "pageledger"
BUILT = HERE.parent / "crates/pageledger/out/pageledger"
SCRIPT = HERE / "scripts" / "worked-image.script"
ANSWERS = SCRIPT.with_suffix(".expected").read_bytes()
PAGES = [HERE.parent / page for page in ("README.md", "docs/SCRIPT.md", "docs/REFERENCE.md")]
PICTURED, PICTURE = HERE.parent / "tour/picture.script", HERE.parent / "docs/picture.svg"
# Scripts, and texts that a picture of what they leave must have: the last set-up that fits, the most frames, a guest that is gone.
STATES = {
    "setup 16 0 0\nsetup 20 0x2000 2\ncreate 1\nsetup 16 0x7000 99": ["20 frames from 0x2000: 2 the monitor's, 17 free, 1 table, "
                                                                     "0 pages, 0 draining", "guest 1: 0 pages, 1 table"],
    "setup 1024 0xfffffffc00000 0\nsetup 1024 0xffffffc00000 1\ncreate 4\ngive 1023 4\nmap 1023 4 0xfffffffff000 5\nshare 4 1023 4 1":
        ["1024 frames from 0xffffffc00000: 1 the monitor's, 1018 free, 4 tables, 1 page, 0 draining", "0xffffffe00000 to 0xffffffffffff",
         "0xfffffffff000", "frame 1023", "r-x", "Shared: nothing", "Draining: nothing"],
    "setup 16 4096 0\ncreate 1\ncreate 2\ncreate 3\ngive 9 1\ngive 10 1\nshare 1 9 2 1\nshare 1 10 2 1\ndestroy 3":
        ["guest 1: 2 pages, 1 table", "guest 3 does not exist", "dirty", "guest 1 shares frames 9 to 10 with guest 2 (to write too)",
         "frame 2 for guest 3, until its invalidation is reported"],
}


def refused(*words, command=COMMAND, **how):
    """A problem unless the command ends with status 2, a message, and nothing on standard output."""
    ran = subprocess.run([command, *words], stdin=subprocess.DEVNULL, capture_output=True, **how)
    if (ran.returncode, ran.stdout) != (2, b"") or not ran.stderr.startswith(b"pageledger: "):
        return f"status {ran.returncode}, printed {ran.stdout[:80]!r}, said {ran.stderr[:80]!r}"
    return None


def tour():
    page = (HERE / "scripts" / "tour.page").read_bytes()
    wide = [line for line in page.decode().splitlines() if len(line) > 80]
    if wide:
        return f"wider than 80 columns: {wide}"
    return tally.problem([COMMAND], page, stdin=subprocess.DEVNULL)


def sessions(page):
    """The sessions that a page shows: the name of each, its script and what is printed, as bytes."""
    shown = re.findall(r"^    \$ cat (\S+)\n((?:    .*\n)*?)    \$ \./pageledger \1\n((?:    .*\n)+)", page.read_text(), re.M)
    return [(name, *(textwrap.dedent(part).encode() for part in parts)) for name, *parts in shown]


def check_sessions(count):
    """Each session of a page must be what happens, and a page must have some."""
    for page in PAGES:
        found = sessions(page)
        count.check(f"sessions in {page.name}", None if found else "there are none")
        for name, script, printed in found:
            count.check(f"{name} in {page.name}", tally.problem([COMMAND, "--built", "-"], printed, input=script))


def pictured(script, texts):
    """What is wrong with the picture of what a script leaves: it must be XML, and have these texts and a cell for each frame."""
    ran = subprocess.run([COMMAND, "--built", "--picture", "-"], input=script.encode(), stdout=subprocess.PIPE)
    if ran.returncode:
        return f"ended with status {ran.returncode}"
    parts = list(xml.etree.ElementTree.fromstring(ran.stdout).iter())
    has = [part.text for part in parts if part.tag.endswith("text")]
    cells = sum(part.get("class") in ("cell", "free", "idle") for part in parts)
    missing = [text for text in texts if text not in has]
    frames = int(texts[0].split()[0]) if "frames from" in texts[0] else 16
    return f"it does not say {missing}" if missing else f"{cells} cells" if cells < frames else None


def check_pictures(count):
    count.check("today's picture", tally.problem([COMMAND, "--built", "--picture", PICTURED], PICTURE.read_bytes()))
    for script, texts in STATES.items():
        count.check(f"a picture: {texts[0]}", pictured(script, texts))
    count.check("a picture of nothing", refused("--built", "--picture", "/dev/null"))
    count.check("a picture of no file", refused("--built", "--picture", HERE / "none"))
    with tempfile.NamedTemporaryFile("w", suffix=".script") as file:
        file.write("setup 16 0 0\ncreate 1\nword 0 1\n")
        file.flush()
        count.check("a picture without a ledger", refused("--built", "--picture", file.name))


def second_start():
    """A problem where a start with nothing changed builds, or says anything."""
    before = BUILT.stat()
    ran = subprocess.run([COMMAND, SCRIPT], stdin=subprocess.DEVNULL, capture_output=True)
    after = BUILT.stat()
    if (before.st_ino, before.st_mtime_ns) != (after.st_ino, after.st_mtime_ns) or ran.stderr:
        return f"it built again, or said {ran.stderr[:200]!r}"
    return None


def without_rt(place):
    """A problem where the command does not say that rt is missing."""
    return refused(SCRIPT, env={"PATH": str(place)})


def bare(command, place, *words):
    """Runs one of our commands where there is no rt, so that all it can do is to look at its words."""
    command = [HERE.parent / command, *words]
    return subprocess.run(command, stdin=subprocess.DEVNULL, capture_output=True, text=True, env={"PATH": str(place)})


def helps(command, place):
    """A problem unless it prints its use on a narrow page, and ends with 0."""
    ran = bare(command, place, "--help")
    lines = ran.stdout.splitlines()
    if ran.returncode or ran.stderr or not ran.stdout.startswith(f"usage: {command} "):
        return f"status {ran.returncode}, printed {ran.stdout[:80]!r}, said {ran.stderr[:80]!r}"
    if "--help" not in ran.stdout or len(lines) < 5 or max(map(len, lines)) > 80:
        return f"{len(lines)} lines, the longest of {max(map(len, lines))} letters"
    return None


def wrong_word(command, place):
    """A problem unless a word that it does not know makes it say its use, and do nothing."""
    ran = bare(command, place, "--no-such", "word")
    if not ran.returncode or ran.stdout or not ran.stderr.startswith(f"{command}: usage: {command} "):
        return f"status {ran.returncode}, printed {ran.stdout[:80]!r}, said {ran.stderr[:80]!r}"
    return None


def main():
    count, nothing = tally.Tally(), subprocess.DEVNULL
    count.check("the tour", tour())
    check_sessions(count)
    check_pictures(count)
    count.check("a second start", second_start())
    count.check("a script from standard input", tally.problem([COMMAND, "-"], ANSWERS, stdin=SCRIPT.open()))
    with tempfile.TemporaryDirectory() as folder:
        place = pathlib.Path(folder)
        shutil.copy(SCRIPT, place / "a script")
        (place / "link").symlink_to(COMMAND)
        count.check("another folder", tally.problem([COMMAND, "a script"], ANSWERS, stdin=nothing, cwd=place))
        count.check("a link to it", tally.problem([place / "link", SCRIPT], ANSWERS, stdin=nothing))
        count.check("a file that is not there", refused(place / "none"))
        count.check("what was built", tally.problem([COMMAND, "--built", SCRIPT], ANSWERS, stdin=nothing))
        shutil.copy(COMMAND, place / "pageledger")
        count.check("nothing was built", refused("--built", SCRIPT, command=place / "pageledger"))
        count.check("a folder", refused(place))
        for tool in ("cat", "dirname", "readlink"):
            (place / tool).symlink_to(shutil.which(tool))
        count.check("no rt", without_rt(place))
        for command in ("pageledger", "test", "build", "bench"):
            count.check(f"{command} --help", helps(command, place))
            count.check(f"{command} with a word that it does not know", wrong_word(command, place))
    count.check("an empty name", refused(""))
    count.check("two files", refused(SCRIPT, SCRIPT))
    count.finish()


main()
