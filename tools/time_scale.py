#!/usr/bin/env python3
"""Measures how a store's figures grow with its size, prints a table, and draws a picture of it.

Usage: tools/time_scale.py [--rounds N] [--only KIND,..] [--sizes PAGES,..] [--picture FILE] PROGRAM

PROGRAM is the benchmark that `scripts/bench scale` built (.kept/bench_scale-..). Each kind (core, store, quiet, beside) is a process of its
own, one at a time; `most memory` is what the process had at most. Figures of one thread are processor time, those of many threads the
clock's. Each is the median of the rounds (one, if not said). The picture has each figure beside that of the smallest store, so a flat line
is a cost that doesn't grow. A store of four million rows takes some ten minutes, and 6 GB.
"""
import argparse, os, re, statistics, subprocess, sys

PAGES = (257, 1_025, 4_097, 16_385)
SLOTS = (256, 16_384)  # of a log: as many as there are pages, within these
WRITERS = 4
KINDS = ("core", "store", "quiet", "beside")
LINE = re.compile(r"^(.*) \| rows (\d+) \| (\d+)(?: (.*))?$")
DRAWN = (
    ("core, build", "build of a core, a row", "#1f4e8c"),
    ("disk, build", "build over a disk, a row", "#b5482f"),
    ("disk, a change and its flush", "a change and its flush", "#3f7d3a"),
    ("disk, restart", "restart, a row", "#7a4fa3"),
    ("threads, opening", "opening for threads, a row", "#a37c1f"),
    ("threads, quiet, commits a second", "a quiet commit of four writers", "#2a8c8c"),
)
BY_ROW = ("disk, restart", "threads, opening")  # these are told as a whole
RATES = ("threads, quiet, commits a second",)


def slots_of(pages):
    return min(max(SLOTS[0], pages - 1), SLOTS[1])


def words_of(kind, pages):
    more = [] if kind == "core" else [str(slots_of(pages))]
    return [kind, str(pages)] + more + ([str(WRITERS)] if kind in ("quiet", "beside") else [])


def play(program, kind, pages):
    """The figures of one run, by name, each with its unit."""
    process = subprocess.Popen([program] + words_of(kind, pages), stdout=subprocess.PIPE, text=True)
    text = process.stdout.read()
    _, status, used = os.wait4(process.pid, 0)
    process.returncode = os.waitstatus_to_exitcode(status)
    if process.returncode != 0:
        print(f"{kind} {pages}: ended with {process.returncode}", file=sys.stderr)
    figures, rows, inside = {}, 0, ""
    for line in text.splitlines():
        found = LINE.match(line)
        if not found:
            continue
        name, rows, figure, unit = found[1], int(found[2]), int(found[3]), found[4] or ""
        if name.startswith(("core", "disk", "threads")):
            inside = name.split(", commits")[0]
        elif kind in ("quiet", "beside"):
            name = f"{inside}: {name}"
        while name in figures:
            name += "'"
        figures[name] = (figure, unit)
    if rows:
        figures[f"{kind}, most memory"] = (used.ru_maxrss * 1024 // rows, "bytes a row")
    return figures, rows


def measure(program, kinds, sizes, rounds):
    """The figures of each size, the rows of each, and the names in the order in which they came."""
    table, rows_of, names = {pages: {} for pages in sizes}, {}, []
    for pages in sizes:
        for kind in kinds:
            runs = []
            for _ in range(rounds):
                figures, rows = play(program, kind, pages)
                runs.append(figures)
                rows_of[pages] = rows or rows_of.get(pages, 0)
            for name in runs[0]:
                told = [run[name] for run in runs if name in run]
                table[pages][name] = (statistics.median(figure for figure, _ in told), told[0][1])
                if name not in names:
                    names.append(name)
            print(f"{kind} {pages}: done", file=sys.stderr)
    return table, rows_of, names


def text_of(figure):
    return f"{figure:,.0f}"


def print_table(table, rows_of, names):
    sizes = list(table)
    print("| rows | " + " | ".join(text_of(rows_of[pages]) for pages in sizes) + " |")
    print("|---|" + "---|" * len(sizes))
    for name in names:
        unit = next((table[pages][name][1] for pages in sizes if name in table[pages]), "")
        told = [text_of(table[pages][name][0]) if name in table[pages] else "-" for pages in sizes]
        print(f"| {name}{', ' + unit if unit else ''} | " + " | ".join(told) + " |")


# ---- the picture


def cost_of(table, rows_of, pages, name):
    figure = table[pages].get(name, (0, ""))[0]
    if not figure:
        return None
    if name in RATES:
        return 1 / figure
    return figure / rows_of[pages] if name in BY_ROW else figure


def lines_of(table, rows_of):
    """Each drawn figure, beside that of the smallest store."""
    lines = []
    for name, text, colour in DRAWN:
        costs = [cost_of(table, rows_of, pages, name) for pages in table]
        if costs[0] and all(costs):
            lines.append((text, colour, [cost / costs[0] for cost in costs]))
    return lines


def spread(places, least):
    """The places of labels, in order, no two nearer than the least."""
    told = sorted(range(len(places)), key=lambda k: places[k])
    moved = list(places)
    for before, k in zip(told, told[1:]):
        moved[k] = max(moved[k], moved[before] + least)
    return moved


def draw(table, rows_of, file):
    lines, sizes = lines_of(table, rows_of), list(table)
    left, right, top, bottom = 60, 560, 60, 320
    most = max(4, max(max(line[2]) for line in lines))
    across = [left + (right - left) * k / max(1, len(sizes) - 1) for k in range(len(sizes))]
    high = lambda cost: bottom - (bottom - top) * cost / most
    out = ['<svg xmlns="http://www.w3.org/2000/svg" width="860" height="370" font-family="sans-serif" font-size="13">']
    out.append('<rect width="860" height="370" fill="white"/>')
    out.append(f'<text x="{left}" y="24">What a store costs by its size, beside the smallest: a flat line is a cost that doesn\'t grow</text>')
    for cost in range(0, int(most) + 1):
        out.append(f'<line x1="{left}" y1="{high(cost):.0f}" x2="{right}" y2="{high(cost):.0f}" stroke="#ddd"/>')
        out.append(f'<text x="{left - 8}" y="{high(cost) + 4:.0f}" text-anchor="end">{cost}</text>')
    for x, pages in zip(across, sizes):
        out.append(f'<text x="{x:.0f}" y="{bottom + 22}" text-anchor="middle">{text_of(rows_of[pages])}</text>')
    out.append(f'<text x="{(left + right) / 2:.0f}" y="{bottom + 42}" text-anchor="middle">rows</text>')
    places = spread([high(costs[-1]) + 4 for _, _, costs in lines], 18)
    for (text, colour, costs), place in zip(lines, places):
        points = " ".join(f"{x:.0f},{high(cost):.0f}" for x, cost in zip(across, costs))
        out.append(f'<polyline fill="none" stroke="{colour}" stroke-width="2" points="{points}"/>')
        out.append(f'<text x="{right + 10}" y="{place:.0f}" fill="{colour}">{text} ({costs[-1]:.1f})</text>')
    out.append("</svg>")
    with open(file, "w") as picture:
        picture.write("\n".join(out) + "\n")


def main():
    words = argparse.ArgumentParser(description=__doc__, formatter_class=argparse.RawDescriptionHelpFormatter)
    words.add_argument("--rounds", type=int, default=1)
    words.add_argument("--only", default=",".join(KINDS))
    words.add_argument("--sizes", default=",".join(map(str, PAGES)))
    words.add_argument("--picture")
    words.add_argument("program")
    given = words.parse_args()
    sizes = [int(pages) for pages in given.sizes.split(",")]
    table, rows_of, names = measure(given.program, given.only.split(","), sizes, given.rounds)
    print_table(table, rows_of, names)
    if given.picture:
        draw(table, rows_of, given.picture)


if __name__ == "__main__":
    main()
