#!/usr/bin/env python3
"""link.py [PART...]: programs link the library and run. The parts, all of them where none is named, want the kit, out/ as ./build writes
it, and:

  alone   nothing more: programs for Arm link the library with nothing beside it, and pageledger_arm.h is clean C++
  c       cc and c++: the header is clean C and C++ and has the numbers that are proved, a dropped answer is warned of, the examples
          print what they should, and so does tests/digest.c
  arm     Debian's gcc-aarch64-linux-gnu and qemu-user, on an Arm machine cc: tests/digest.c prints the same over both Arm libraries,
          pageledger_arm.h is clean C, and tests/stores.c catches each store of theirs to RAM
  rust    cc and cargo: the examples in Rust, and the crate host/ beside a second implementation of documents 01 and 03
  stores  the same, on x86-64: each store of the library to RAM, caught and looked at (host/tests/stores)
"""

import os
import pathlib
import platform
import re
import subprocess
import sys
import tempfile

import header
import tally

HERE = pathlib.Path(__file__).resolve().parent.parent
HOST = f"{platform.machine()}-linux"
# What each example prints, in C and in Rust.
WALK, MONITOR = "0x40001abc fetched 4\n", "0x40008abc fetched 4\ntake answers 13"
IN_C = {"walk": WALK, "monitor": MONITOR + ", STILL_USED\n"}
IN_RUST = {"walk": WALK, "monitor": MONITOR + ": the page is still mapped or shared\n"}
HOST_TESTS = {"walks", "sizes", "worked_image", "operations", "wrong_answers", "cases::section_5", "cases::runs_out", "cases::set_up",
              "cases::questions", "cases::most_frames", "faces::refusals", "faces::rights", "faces::pages", "faces::between_threads"}
STORE_TESTS = {"lent::each_store_is_caught": "each store to RAM is caught", "wrong_libraries": "wrong libraries are refused",
               "stores": "the library's stores are the list's, and nothing is reached after any"}
STRICT = ["-Wall", "-Wextra", "-pedantic", "-Werror"]
STANDARDS = (("cc", "c", "c99"), ("cc", "c", "c11"), ("cc", "c", "c2x"), ("c++", "c++", "c++11"), ("c++", "c++", "c++17"))


def run(command, expected=None, **environment):
    """Runs a command; says what went wrong, or None. What it printed is in run.printed."""
    run.printed = ""
    try:
        ran = subprocess.run(command, cwd=HERE, stdout=subprocess.PIPE, stderr=subprocess.STDOUT, text=True,
                             env={**os.environ, **environment})
    except OSError as problem:
        return str(problem)
    run.printed = ran.stdout
    if ran.returncode != 0:
        return f"{' '.join(map(str, command))} ended with status {ran.returncode}:\n{ran.stdout[-2000:]}"
    if expected is not None and ran.stdout != expected:
        return f"printed {ran.stdout!r}, and not {expected!r}"
    return None


def numbers_differ():
    """What the definitions and the code of crate c_answers call a number, and the header calls by the same name another."""
    crate, known = HERE / "crates/c_answers", header.numbers()
    defined = re.findall(r"^([a-z]\w*) = (\d+)$", (crate / "specs/Numbers.antt").read_text(), re.M)
    coded = re.findall(r"^pub const (\w+): \w+ = (\d+);$", (crate / "src/numbers.rt").read_text(), re.M)
    for numbers in (defined, coded):
        other = [name for name, value in numbers if known.get(name.upper()) != int(value)]
        if other or not numbers:
            return f"not as in the header, or none found: {other}"
    return None


def versions_differ():
    """The header's version as a number and as text, and that of the Rust crate."""
    text = re.search(r'^#define PAGELEDGER_VERSION_STRING "(\d+)\.(\d+)\.(\d+)"$', header.text(), re.M)
    number = re.search(r"^#define PAGELEDGER_VERSION (0x[0-9a-f]{6})$", header.text(), re.M)
    crate = re.search(r'^version = "([\d.]+)"$', (HERE / "host/Cargo.toml").read_text(), re.M)
    if not (text and number and crate):
        return "there is one without a version"
    major, minor, patch = map(int, text.groups())
    same = int(number[1], 16) == major << 16 | minor << 8 | patch and crate[1] == f"{major}.{minor}.{patch}"
    return None if same else f"{text[0]}, {number[0]}, and the Rust crate is {crate[1]}"


def refusal_names(work):
    """Each refusal's name is the header's own name for it, and no other number has one."""
    known = {value: name for name, value in {**header.numbers("refusal"), "DONE": 0}.items()}
    source, program = pathlib.Path(work, "names.c"), f"{work}/names"
    source.write_text('#include <stdio.h>\n#include "pageledger.h"\n'
                      "int main(void) { for (uint64_t i = 0; i < 100; i++) puts(pageledger_refusal_name(i)); return 0; }\n")
    expected = "".join(f"{known.get(i, 'UNKNOWN')}\n" for i in range(100))
    return run(["cc", "-std=c99", *STRICT, "-Iout/include", source, "-o", program]) or run([program], expected)


def dropped_answer(compiler, language, standard, work):
    """A program that drops an answer does not compile where warnings are errors, for that reason and for no other."""
    for drops, call in ((False, "return (int)%s;"), (True, "%s; return 0;")):
        source = pathlib.Path(work, f"dropped.{language}")
        source.write_text('#include "pageledger.h"\nint main(void) { static uint32_t l[1]; static uint8_t r[1]; '
                          + call % "pageledger_create(r, 1, l, 1, 1)" + " }\n")
        problem = run([compiler, "-x", language, f"-std={standard}", *STRICT, "-Iout/include", "-c", source, "-o", "/dev/null"])
        if drops != bool(re.search(r"warn.unused.result|nodiscard|-Wunused-result", problem or "")) or not drops and problem:
            return problem or "nothing was said"
    return None


def kit_tools():
    """Where the kit's clang and linker stand."""
    doc = subprocess.run(["rt", "doc"], stdout=subprocess.PIPE, text=True).stdout
    return pathlib.Path(doc.strip()).parent / "toolchain/bin"


def for_arm(compiler, language, standard):
    """What is wrong with pageledger_arm.h, or None."""
    command = [*compiler, "-x", language, f"-std={standard}", *STRICT, "-fsyntax-only", "-include", "out/include/pageledger_arm.h"]
    return run([*command, "/dev/null"])


def linked_alone(folder, triple, helpers, work):
    """Links a program for Arm that has the address of each function, with the kit's linker and no other library. Of a C library the
    program has these helpers alone."""
    tools = kit_tools()
    names = sorted(header.functions())
    source, program = pathlib.Path(work, "alone.c"), f"{work}/alone-{folder}"
    source.write_text("".join(f"extern char {n}[];\n" for n in names) + "char *_start[] = {" + ", ".join(names) + "};\n"
                      + "".join(f"char {n}[1];\n" for n in helpers))
    if not names:
        return "the header has no functions"
    library = HERE / "out" / folder / "libpageledger.a"
    return (run([tools / "clang", f"--target={triple}", "-fno-builtin", "-c", source, "-o", f"{program}.o"])
            or run([tools / "ld.lld", f"{program}.o", library, "-o", program]))


def digest(folder, work, compiler=("cc",), runner=()):
    """What is wrong with what tests/digest.c prints over a library, or None."""
    expected = (HERE / "tests/digest.numbers").read_text()
    sources = ["-Iout/include", "tests/digest.c", f"out/{folder}/libpageledger.a"]
    return run([*compiler, "-std=c99", "-O2", *STRICT, *sources, "-o", f"{work}/digest"]) or run([*runner, f"{work}/digest"], expected)


def check_alone(count, work):
    count.check("a program for aarch64-linux", linked_alone("aarch64-linux", "aarch64-unknown-linux-gnu", ["memset"], work))
    count.check("a program for aarch64-none-elf", linked_alone("aarch64-none-elf", "aarch64-none-elf", [], work))
    compiler = [kit_tools() / "clang", "--target=aarch64-none-elf", "--no-default-config", "-Iexamples/board/libc"]
    for standard in ("c++11", "c++17"):
        count.check(f"pageledger_arm.h as {standard}", for_arm(compiler, "c++", standard))


def check_c(count, work):
    count.check("the header's numbers beside those of crate c_answers", numbers_differ())
    count.check("the versions of header and Rust crate", versions_differ())
    for compiler, language, standard in STANDARDS:
        command = [compiler, "-x", language, f"-std={standard}", *STRICT, "-fsyntax-only", "-include", "out/include/pageledger.h",
                   "/dev/null"]
        count.check(f"the header as {standard}", run(command))
        count.check(f"a dropped answer is warned of in {standard}", dropped_answer(compiler, language, standard, work))
    count.check("the names of refusals", refusal_names(work))
    for compiler, language, standard in (("cc", "c", "c99"), ("c++", "c++", "c++11")):
        for name, expected in IN_C.items():
            program = f"{work}/{name}-{standard}"
            command = [compiler, "-x", language, f"-std={standard}", *STRICT, "-Iout/include", f"examples/{name}.c",
                       "-x", "none", HERE / "out" / HOST / "libpageledger.a", "-o", program]
            count.check(f"examples/{name}.c as {standard}", run(command) or run([program], expected))
    count.check(f"the answers of out/{HOST}", digest(HOST, work))
    command = ["cc", "-std=c11", "-O2", "-fno-builtin", *STRICT, "tests/memory.c", "-o", f"{work}/memory"]
    count.check("support/memory.c beside the C library's", run(command) or run([f"{work}/memory"], "23960 of 23960 agree\n"))


def caught(folder, work, compiler, runner, words, wrong=None):
    """What is wrong with what tests/stores.c makes of a library, or None; where it must find something wrong, it must say so."""
    program = f"{work}/stores"
    sources = ["-Iout/include", "tests/stores.c", f"out/{folder}/libpageledger.a"]
    if problem := run([*compiler, "-std=c99", "-O2", *STRICT, *words, *sources, "-o", program]):
        return problem
    problem = run([*runner, program])
    return problem if not wrong else None if problem and run.printed == f"{wrong}\n" else f"it says {run.printed!r}"


def check_arm(count, work):
    native = platform.machine() == "aarch64"
    compiler, runner = (["cc", "-static"], []) if native else (["aarch64-linux-gnu-gcc", "-static"], ["qemu-aarch64"])
    for folder in ("aarch64-linux", "aarch64-none-elf"):
        count.check(f"the answers of out/{folder}", digest(folder, work, compiler, runner))
    for standard in ("c99", "c11", "c2x"):
        count.check(f"pageledger_arm.h as {standard}", for_arm(compiler[:1], "c", standard))
    # On bare metal memset is the library's own, and each of its stores is caught.
    for folder, many, words in (("aarch64-linux", 20000, ["-DOF_THE_PROGRAM"]), ("aarch64-none-elf", 1000, [])):
        words, wrong = [*words, f"-DWATCHED={many}"], "a descriptor is not stored as the list has it"
        count.check(f"the stores of out/{folder}", caught(folder, work, compiler, runner, words))
        count.check(f"wrong stores with out/{folder}", caught(folder, work, compiler, runner, [*words, "-DWRONG"], wrong))


def cargo(*words, expected=None):
    """Runs cargo, as run does."""
    return run(["cargo", *words], expected, CARGO_TARGET_DIR=str(HERE / "target/host"), CARGO_NET_OFFLINE="true")


def host_tests(*words):
    """Runs tests of host/ and shows what they counted: what went wrong, and those that ended well."""
    problem = cargo("test", "--manifest-path", "host/Cargo.toml", *words, "--", "--nocapture", "--test-threads=1")
    for line in run.printed.splitlines():
        if re.match(r" *\d+ [a-z]|seed ", line):
            print(line)
    # What a test prints stands between its name and its end.
    parts = re.split(r"^test ([\w:]+) \.\.\.", run.printed, flags=re.M)
    return problem, {name for name, rest in zip(parts[1::2], parts[2::2]) if re.search(r"(^| )ok$", rest, re.M)}


def check_rust(count, _):
    for name, expected in IN_RUST.items():
        problem = cargo("run", "--quiet", "--manifest-path", "examples/rust/Cargo.toml", "--bin", name, expected=expected)
        count.check(f"examples/rust, {name}", problem)
    problem, well = host_tests()
    count.check("host/ builds, and its tests run", problem or (None if HOST_TESTS <= well else f"ran {sorted(well)}"))


def check_stores(count, _):
    problem, well = host_tests("--test", "stores")
    for name, what in STORE_TESTS.items():
        count.check(what, None if name in well else problem or f"{name} did not run")


PARTS = {"alone": check_alone, "c": check_c, "arm": check_arm, "rust": check_rust, "stores": check_stores}


def main(parts):
    if not set(parts) <= set(PARTS):
        sys.exit(__doc__)
    count = tally.Tally()
    with tempfile.TemporaryDirectory() as work:
        for part in parts or PARTS:
            PARTS[part](count, work)
    count.finish()


main(sys.argv[1:])
