#!/usr/bin/env python3
"""report.py FOLDER [--dry]: runs FOLDER's programs walks and operations, beside C at -O2 and at -O3, on one core; prints the ratios
of the library to C, and writes docs/BENCHMARK.md and docs/benchmark.svg."""

import os
import pathlib
import platform
import statistics
import subprocess
import sys

DOCS = pathlib.Path(__file__).resolve().parent.parent / "docs"
RUNS = 5
# image, frames, walks of a run and side
IMAGES = [("hot", 16, 400_000), ("cold", 65536, 200_000)]
WALKS = {"stage2": "walk of stage 2", "both": "walk of both stages"}
OPERATIONS = {"map": "map", "unmap": "unmap", "map+unmap": "map and unmap", "give+take": "take and give (clears a frame)"}
GOALS = {"walk of stage 2": 1.05, "walk of both stages": 1.05, "map and unmap": 1.2}
SIZES = [1 << 4, 1 << 8, 1 << 12, 1 << 16]


class Row:
    """A thing that both sides do: the ratios of the library's time to C's in the five runs."""

    def __init__(self, what, where, level, times):
        self.what, self.where, self.level = what, where, level
        self.ratios = sorted(ours / plain for plain, ours in zip(times[:RUNS], times[RUNS:]))
        self.ratio = statistics.median(self.ratios)
        self.goal = GOALS.get(what)

    def __str__(self):
        return f"{self.what:32} {self.where:18} C -O{self.level}: {self.ratio:.3f} ({self.ratios[0]:.3f} to {self.ratios[-1]:.3f})"


def lines_of(folder, program, *words):
    core = max(os.sched_getaffinity(0))
    command = ["taskset", "-c", str(core), f"{folder}/{program}", *map(str, words)]
    ran = subprocess.run(command, stdout=subprocess.PIPE, text=True)
    if ran.returncode != 0:
        sys.exit(f"bench: {' '.join(command)} ended with status {ran.returncode}: {ran.stdout}")
    for line in ran.stdout.splitlines():
        yield line.split()


def measure(folder):
    """The rows, and the library's nanoseconds by operation and size of RAM, as it grows."""
    rows, growth = [], {}
    for level in (2, 3):
        for image, frames, walks in IMAGES:
            for walk, *times in lines_of(folder, f"walks-O{level}", frames, walks):
                rows.append(Row(WALKS[walk], f"{image} image", level, [float(t) for t in times]))
                print(rows[-1], flush=True)
        for kind, name, *words in lines_of(folder, f"operations-O{level}"):
            if kind == "compare":
                rows.append(Row(OPERATIONS[name], "16,384 pages", level, [float(t) for t in words]))
                print(rows[-1], flush=True)
            elif level == 2:
                growth.setdefault(name, {})[int(words[0])] = statistics.median(float(t) for t in words[1:])
    return rows, growth


def processor():
    try:
        lines = pathlib.Path("/proc/cpuinfo").read_text().splitlines()
    except OSError:
        lines = []
    names = [line.split(":", 1)[1].strip() for line in lines if line.startswith("model name")]
    return names[0] if names else platform.machine()


def table(rows):
    yield "| what | on | to reach | to C at -O2 | lowest, highest | to C at -O3 | lowest, highest |"
    yield "|---|---|---|---|---|---|---|"
    for row in (r for r in rows if r.level == 2):
        (other,) = (r for r in rows if r.level == 3 and (r.what, r.where) == (row.what, row.where))
        cells = [row.what, row.where, str(row.goal or "")]
        for r in (row, other):
            cells += [f"{r.ratio:.3f}", f"{r.ratios[0]:.3f}, {r.ratios[-1]:.3f}"]
        yield "| " + " | ".join(cells) + " |"


def growth_table(growth):
    yield "| operation | " + " | ".join(f"{n:,} frames" for n in SIZES) + " |"
    yield "|---|" + "---|" * len(SIZES)
    for name, cost in growth.items():
        yield f"| {name} | " + " | ".join(f"{cost[n] / cost[SIZES[0]]:.1f}" for n in SIZES) + " |"


def page(rows, growth, load):
    missed = [f"{r.what}, {r.where}" for r in rows if r.level == 2 and r.goal and r.ratio > r.goal]
    return "\n".join([
        "# Speed beside C",
        "",
        "Written by `./bench`. A ratio of 1 is the speed of plain C (benchmark/walk.c and monitor.c) of the same definitions;",
        "less is faster.",
        "What is to be reached is meant beside clang -O2. " + (f"NOT reached: {'; '.join(missed)}." if missed else "All of it is reached."),
        "",
        *table(rows),
        "",
        "![ratios](benchmark.svg)",
        "",
        "Both sides are compiled by the kit's clang, and the kit compiles the library at -O3. One process does both, in short turns, and a",
        f"run counts the fastest turn of each side. The figures are the median, the lowest and the highest ratio of {RUNS} runs on one core.",
        "Every walk succeeds, with 4 descriptors for stage 2 and 24 for both stages, and has addresses that no other turn of the run",
        "has; the hot image has 16 frames, the cold one 65,536 (256 MiB). map and unmap go over 16,384 consecutive pages, each its own",
        "frame, and their tables are there. The plain C has a ledger of 28 bytes a frame, ours has 64.",
        "",
        "## As RAM grows",
        "",
        "The library's time for one operation, as a multiple of its time at 16 frames in the same run. Set-up, destroy and invalidated",
        "look at every frame. The others look at a fixed number of frames; what they gain or lose is the processor's caches: at 65,536",
        "frames the page that give clears, and its row of the ledger, are not in them. Counted once by valgrind, the instructions of",
        "create, give, share, unshare, map, unmap and take are the same at 16 and at 65,536 frames (share 41, unmap 63, take 54, and",
        "4,169 for give, which clears the frame).",
        "",
        *growth_table(growth),
        "",
        f"Machine: {processor()}, {platform.machine()}; load when it began: {load:.1f}.",
        "",
    ])


# The picture, in pixels: its width; where the bars begin and end, and the figures stand; a bar, and the gap between two things.
WIDTH, LEFT, RIGHT, FIGURES = 860, 280, 790, 840
TOP, BAR, GAP = 66, 14, 14
SHADES = {2: "#4a7db5", 3: "#a9c3de"}
MARK = "#c00000"


def text(x, y, words, anchor="start", more=""):
    return f'<text x="{x:.1f}" y="{y:.1f}" text-anchor="{anchor}"{more}>{words}</text>'


def line(x1, y1, x2, y2, colour, width):
    return f'<line x1="{x1:.1f}" y1="{y1:.1f}" x2="{x2:.1f}" y2="{y2:.1f}" stroke="{colour}" stroke-width="{width}"/>'


def legend():
    out, x, y = [text(12, 22, "The library's time as a multiple of C's: less is faster", more=' font-size="15" font-weight="bold"')], 12, 44
    for level, shade in SHADES.items():
        out += [f'<rect x="{x}" y="{y - 10}" width="22" height="{BAR - 2}" fill="{shade}"/>', text(x + 28, y, f"beside C at -O{level}")]
        x += 155
    out += [line(x, y - 4, x + 22, y - 4, "black", 2), text(x + 28, y, "lowest to highest of the runs, the bar is the median")]
    x += 370
    return out + [line(x, y - 12, x, y + 3, MARK, 2), text(x + 8, y, "to reach, beside -O2")]


def bars(row, y, x):
    """A row's bar from 0, its runs, its figure in a column of its own, and what it has to reach, which is meant beside -O2 alone."""
    low, middle, high = x(row.ratios[0]), x(row.ratio), x(row.ratios[-1])
    out = [f'<rect x="{LEFT}" y="{y}" width="{middle - LEFT:.1f}" height="{BAR}" fill="{SHADES[row.level]}"/>',
           line(low, y + BAR / 2, high, y + BAR / 2, "black", 2), text(FIGURES, y + BAR - 3, f"{row.ratio:.2f}", "end")]
    if row.goal and row.level == 2:
        out.append(line(x(row.goal), y - 3, x(row.goal), y + BAR, MARK, 2))
    return out


def svg(rows):
    things = list(dict.fromkeys((row.what, row.where) for row in rows))
    most = max(1.25, *(ratio for row in rows for ratio in row.ratios), *(row.goal or 0 for row in rows))
    quarters = -int(-most // 0.25)
    x = lambda ratio: LEFT + (RIGHT - LEFT) * ratio / (0.25 * quarters)
    bottom = TOP + len(things) * (len(SHADES) * BAR + GAP)
    out = [f'<svg xmlns="http://www.w3.org/2000/svg" width="{WIDTH}" height="{bottom + 26}" viewBox="0 0 {WIDTH} {bottom + 26}" '
           'font-family="sans-serif" font-size="12">', '<rect width="100%" height="100%" fill="white"/>', *legend()]
    for mark in (0.25 * i for i in range(quarters + 1)):
        out += [line(x(mark), TOP - 6, x(mark), bottom, "#666" if mark == 1 else "#ddd", 1),
                text(x(mark), bottom + 16, f"{mark:g}", "middle")]
    for i, (what, where) in enumerate(things):
        y = TOP + i * (len(SHADES) * BAR + GAP)
        out += [text(LEFT - 10, y + BAR - 3, what, "end"), text(LEFT - 10, y + 2 * BAR - 3, where, "end", ' fill="#666"')]
        for row in (r for r in rows if (r.what, r.where) == (what, where)):
            out += bars(row, y + BAR * (row.level - 2), x)
    return "\n".join(out + ["</svg>", ""])


def main(folder, *words):
    load = os.getloadavg()[0]
    rows, growth = measure(folder)
    text = page(rows, growth, load)
    if "--dry" in words:
        print(text)
        return
    DOCS.mkdir(exist_ok=True)
    (DOCS / "BENCHMARK.md").write_text(text)
    (DOCS / "benchmark.svg").write_text(svg(rows))


if __name__ == "__main__":
    main(*sys.argv[1:])
