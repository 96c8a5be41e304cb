#!/usr/bin/env python3
"""Measures writers of a store in memory beside other stores, in turn: time_peers.py FOLDER [ROUNDS [SECONDS]]

FOLDER has a program for each other store. A program is called as

    PROGRAM EMPTY_FOLDER nosync quiet|build WRITERS SECONDS

and does what `scripts/bench threads` does: each writer puts a row with a 16-byte key and then deletes it, a row a
transaction, and waits for each commit; with `build`, an index over 12,096 rows is built beside them again and again.
It prints a line, as "rocks nosync quiet 4 writers: 86000 commits/s, 99.9% 120 us", and of builds also
", 3 builds, 20.1 ms each". A script `servers.sh` there, if any, is run as `servers.sh pg` once a round, and prints
lines as "postgres writers=4 quiet tps = 86000.0 .. cic_ms=200".

This store is measured twice: its writers wait for the thread that flushes, or they write what they wait for themselves
("led"). Prints the medians of all rounds as a table, and how many times as much this store does, led. Measure on a
machine that does nothing else.
"""
import collections
import os
import re
import statistics
import subprocess
import sys
import tempfile

WRITERS = (1, 2, 4, 8)
OWN = re.compile(r"(\d+) writers, (quiet|beside a build)(?:, led)?: (\d+) commits a second .*?(\d+) at 99\.9 %")
OWN_BUILD = re.compile(r"(\d+) writers(?:, led)?: \d+ builds over .*?, (\d+) microseconds each")
NAMES = {"": "this store", "led": "this store, led"}
OTHER = re.compile(r"(\w+) nosync (quiet|build) (\d+) writers: (\d+) commits/s, 99\.9% (\d+) us(?:, \d+ builds, ([\d.]+) ms each)?")
SERVER = re.compile(r"(\w+) writers=(\d+) (quiet|build) tps = ([\d.]+)(.*)")
top = os.path.dirname(os.path.dirname(os.path.abspath(__file__)))
commits, slowest, builds = (collections.defaultdict(list) for _ in range(3))


def printed(*words, **how):
    ran = subprocess.run(words, stdout=subprocess.PIPE, text=True, stdin=subprocess.DEVNULL, **how)
    return ran.stdout


def measure_own(writers, led):
    name = NAMES[led]
    for word in ("quiet", "beside"):
        said = printed(f"{top}/scripts/bench", "threads", word, str(writers), led)
        for count, how, rate, worst in OWN.findall(said):
            at = (name, "quiet" if how == "quiet" else "build", int(count))
            commits[at].append(float(rate))
            slowest[at].append(float(worst))
        for count, each in OWN_BUILD.findall(said):
            builds[name, int(count)].append(float(each) / 1000)


def measure_other(program, writers, seconds):
    for how in ("quiet", "build"):
        with tempfile.TemporaryDirectory(prefix="peers-", dir="/dev/shm", ignore_cleanup_errors=True) as room:
            try:
                said = printed(program, room, "nosync", how, str(writers), seconds, timeout=120)
            except subprocess.TimeoutExpired:
                said = ""
        for name, kind, count, rate, worst, each in OTHER.findall(said):
            commits[name, kind, int(count)].append(float(rate))
            slowest[name, kind, int(count)].append(float(worst))
            if each:
                builds[name, int(count)].append(float(each))


def measure_servers(script):
    for name, count, how, rate, rest in SERVER.findall(printed(script, "pg")):
        commits[name, how, int(count)].append(float(rate))
        each = [float(it) for it in re.findall(r"cic_ms=(\d+)", rest)]
        if each:
            builds[name, int(count)].append(statistics.median(each))


def median(numbers, scale=1.0, form="{:.0f}"):
    return form.format(statistics.median(numbers) / scale) if numbers else "-"


def row(title, cells):
    print("| " + " | ".join([title, *cells]) + " |")


def show():
    own = list(NAMES.values())
    names = own + sorted({it[0] for it in commits} - set(own))
    row("Writers", [str(it) for it in WRITERS])
    row("---", ["---"] * len(WRITERS))
    for how, words in (("quiet", "quiet"), ("build", "beside a build")):
        for name in names:
            row(f"{name}, {words}, thousand commits a second",
                [median(commits[name, how, it], 1000, "{:.1f}") for it in WRITERS])
        for name in names[len(own):]:
            cells = []
            for it in WRITERS:
                this, other = commits[own[-1], how, it], commits[name, how, it]
                both = this and other
                cells.append(f"{statistics.median(this) / statistics.median(other):.2f}" if both else "-")
            row(f"{own[-1]}, {words}, times {name}", cells)
        for name in names:
            row(f"{name}, {words}, 99.9 % within, ms", [median(slowest[name, how, it], 1000, "{:.2f}") for it in WRITERS])
    for name in names:
        row(f"{name}, a build beside writers, ms", [median(builds[name, it], 1, "{:.0f}") for it in WRITERS])


def main():
    if len(sys.argv) < 2 or not os.path.isdir(sys.argv[1]):
        sys.exit(__doc__)
    folder = os.path.abspath(sys.argv[1])
    rounds = int(sys.argv[2]) if len(sys.argv) > 2 else 5
    seconds = sys.argv[3] if len(sys.argv) > 3 else "1.5"
    files = [f"{folder}/{it}" for it in sorted(os.listdir(folder))]
    programs = [it for it in files if os.access(it, os.X_OK) and os.path.isfile(it) and not it.endswith(".sh")]
    for _ in range(rounds):
        for writers in WRITERS:
            for led in NAMES:
                measure_own(writers, led)
            for program in programs:
                measure_other(program, writers, seconds)
        if os.path.exists(f"{folder}/servers.sh"):
            measure_servers(f"{folder}/servers.sh")
    show()


if __name__ == "__main__":
    main()
