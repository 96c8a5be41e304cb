#!/usr/bin/env python3
"""Measures what this store is to reach, and prints a table of it: time_goals.py [FOLDER [ROUNDS]]

Each round runs `scripts/bench threads table`, and each program of other stores in FOLDER, if one is given, as
`tools/time_peers.py` does; the last one is followed by `scripts/bench core table 5`. All that is printed are medians.
Behind the table stand transactions of one row and of ten, with keys that rise and keys in no order. Measure on a
machine that does nothing else; two rounds take some six minutes.
"""
import collections
import os
import re
import statistics
import sys

import time_peers

LINE = re.compile(r"(\d+) writers, (quiet|beside a build)(, led)?(.*?): (\d+) commits a second in \d+ milliseconds; a transaction "
                  r"takes (\d+) microseconds, (\d+) at 99 %, (\d+) at 99\.9 %; (\d+) nanoseconds of processor time")
BUILDS = re.compile(r"(\d+) writers(, led)?(.*?): \d+ builds over .*?, (\d+) microseconds each")
IDLE = re.compile(r"idle, 8 seats: (\d+) microseconds")
CORE = re.compile(r"^(.*?): .*; least \d+, median (\d+); ratio in hundredths: least \d+, median (\d+)", re.M)
figures = collections.defaultdict(list)
core = {}


def measure():
    said = time_peers.printed(f"{time_peers.top}/scripts/bench", "threads", "table")
    for count, how, led, work, rate, half, _most, worst, spent in LINE.findall(said):
        at = (how, bool(led), work.strip(", "), int(count))
        for name, figure in (("rate", rate), ("half", half), ("worst", worst), ("spent", spent)):
            figures[at, name].append(float(figure))
        kind = "quiet" if how == "quiet" else "build"
        if not work:
            own = time_peers.NAMES["led" if led else ""]
            time_peers.commits[own, kind, int(count)].append(float(rate))
            time_peers.slowest[own, kind, int(count)].append(float(worst))
    for count, led, work, each in BUILDS.findall(said):
        figures[("build", bool(led), work.strip(", "), int(count)), "each"].append(float(each))
        if not work:
            time_peers.builds[time_peers.NAMES["led" if led else ""], int(count)].append(float(each) / 1000)
    for idle in IDLE.findall(said):
        figures[("idle",), "spent"].append(float(idle))


def median(at, name, scale, form="{:.0f}"):
    return time_peers.median(figures[at, name], scale, form)


def line(title, goal, both):
    time_peers.row(title, [goal, *both])


def each_count(how, name, scale, form, counts=time_peers.WRITERS):
    return [", ".join(median((how, led, "", it), name, scale, form) for it in counts) for led in (False, True)]


def show_goals():
    time_peers.row("Goals", ["goal", "waiting for the flusher", "led"])
    time_peers.row("---", ["---"] * 3)
    line("quiet, 1, 2, 4, 8 writers, thousand commits a second", "200, 160, 150, 150", each_count("quiet", "rate", 1000, "{:.0f}"))
    line("beside a build", "90, 90, 95, 115", each_count("beside a build", "rate", 1000, "{:.0f}"))
    line("one writer's transaction, median, µs", "4", each_count("quiet", "half", 1, "{:.0f}", (1,)))
    line("99.9 % beside a build, 1, 2, 4, 8 writers, ms", "0.5", each_count("beside a build", "worst", 1000, "{:.1f}"))
    line("a build beside 1, 2, 4, 8 writers, ms", "45 beside 4", each_count("build", "each", 1000, "{:.0f}"))
    line("processor time a quiet commit, 1 and 8 writers, µs", "5, 15", each_count("quiet", "spent", 1000, "{:.0f}", (1, 8)))
    line("idle store with 8 seats, ms a second", "3", [time_peers.median(figures[("idle",), "spent"], 1000, "{:.1f}")])
    for name, goal, which, scale, form in (
            ("insertion over an engine, ns a row, beside the core's", "450 ns", 0, 1, "{:.0f}"),
            ("build in the core of 16,128 rows, ns a row, beside a sort", "2.0 sorts", 1, 100, "{:.2f}"),
            ("build over a disk, ns a row, beside a sort", "700 ns", 0, 1, "{:.0f}"),
            ("restart, us, beside a copy of a half", "1.8 copies", 1, 100, "{:.2f}")):
        if name in core:
            line(name, goal, [form.format(core[name][which] / scale)])


def show_mix():
    works = sorted({it[0][2] for it in figures if len(it[0]) == 4 and it[0][2]})
    counts = sorted({it[0][3] for it in figures if len(it[0]) == 4 and it[0][2]})
    time_peers.row("Thousand commits a second", [f"{it} writers, quiet; beside a build" for it in counts])
    time_peers.row("---", ["---"] * len(counts))
    for work in works:
        for led in (False, True):
            time_peers.row(work + (", led" if led else ""), ["; ".join(
                median((how, led, work, it), "rate", 1000, "{:.1f}") for how in ("quiet", "beside a build")) for it in counts])


def main():
    folder = os.path.abspath(sys.argv[1]) if len(sys.argv) > 1 else None
    programs = []
    if folder:
        files = [f"{folder}/{it}" for it in sorted(os.listdir(folder))]
        programs = [it for it in files if os.access(it, os.X_OK) and os.path.isfile(it) and not it.endswith(".sh")]
    for _ in range(int(sys.argv[2]) if len(sys.argv) > 2 else 2):
        measure()
        for program in programs:
            for writers in time_peers.WRITERS:
                time_peers.measure_other(program, writers, "1.5")
    if folder and os.path.exists(f"{folder}/servers.sh"):
        time_peers.measure_servers(f"{folder}/servers.sh")
    for name, median_of, ratio in CORE.findall(time_peers.printed(f"{time_peers.top}/scripts/bench", "core", "table", "5")):
        core[name] = (float(median_of), float(ratio))
    show_goals()
    print()
    show_mix()
    print()
    time_peers.show()


if __name__ == "__main__":
    main()
