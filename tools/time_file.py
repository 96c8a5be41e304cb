#!/usr/bin/env python3
"""Measures a store in a file beside other stores in the same folder, each with a sync a commit, and prints a table.

Usage: tools/time_file.py [--blocks] [--peers PEERS] PROGRAM FOLDER [ROUNDS [SECONDS]]

PROGRAM is the benchmark that `scripts/bench threads` built (.kept/bench_threads-..), FOLDER an empty folder on the disk in question. With
--blocks the store's file is one of blocks. PEERS has a program for each other store, called as `PROGRAM EMPTY_FOLDER sync quiet WRITERS
SECONDS`, which prints a line as "rocks sync quiet 8 writers: 86000 commits/s, .."; without it SQLite is played by this tool.

A round lets one writer and then eight commit, of each store in turn: a transaction puts a row in a table with an index, or deletes the one
before. In each round a small program, which gcc builds, writes 4 KiB and syncs, twice, and does nothing else: the limit of one writer, two
syncs a group. Then the calls of a second are recorded (strace), a full store is opened, and its memory looked at. Medians of the rounds.
Measure on a machine that does nothing else: five rounds of two seconds take some three minutes.
"""
import collections, multiprocessing, os, re, shutil, signal, sqlite3, statistics, subprocess, sys, time

LIMIT = r"""
#include <fcntl.h>
#include <stdio.h>
#include <stdlib.h>
#include <time.h>
#include <unistd.h>
static double now(void) { struct timespec t; clock_gettime(CLOCK_MONOTONIC, &t); return t.tv_sec + t.tv_nsec / 1e9; }
int main(int n, char **a) {
  static char block[4096]; long groups = 0; int file = open(a[1], O_RDWR | O_CREAT, 0600); double seconds = atof(a[2]);
  for (long k = 0; k < 512; k++) if (pwrite(file, block, 4096, 4096 * k) != 4096) return 1;
  if (fdatasync(file)) return 1;
  double begun = now();
  for (; now() - begun < seconds; groups++)
    for (int k = 0; k < 2; k++) { block[0]++; if (pwrite(file, block, 4096, 4096 * ((2 * groups + k) % 512)) != 4096 || fdatasync(file)) return 1; }
  printf("%.1f\n", groups / (now() - begun)); return 0;
}
"""
ROOM = 256 * 8192 + 65536 * 64  # what a full store's pages and its entries take in the format, at the most
FOUND = 255 * 8192 + 255 * 63 * 64  # what those of them take that are there
GROUP = 4096  # the bytes of a slot of the log


# ---- SQLite, where no program plays it


def commit_until(path, number, start, seconds, counts):
    base = sqlite3.connect(path, timeout=60, isolation_level=None)
    base.execute("PRAGMA synchronous=FULL")
    start.wait()
    end, count, there = time.monotonic() + seconds, 0, False
    while time.monotonic() < end:
        base.execute("BEGIN IMMEDIATE")
        if there:
            base.execute("DELETE FROM t WHERE id = ?", (number,))
        else:
            base.execute("INSERT INTO t VALUES (?, ?, ?)", (number, number.to_bytes(4, "big"), b"row"))
        base.execute("COMMIT")
        there, count = not there, count + 1
    counts.put(count)
    base.close()


def sqlite_rate(path, writers, seconds):
    base = sqlite3.connect(path, isolation_level=None)
    base.execute("PRAGMA journal_mode=WAL")
    base.execute("CREATE TABLE t (id INTEGER PRIMARY KEY, key BLOB, body BLOB)")
    base.execute("CREATE INDEX i ON t (key)")
    base.close()
    start, counts = multiprocessing.Barrier(writers), multiprocessing.Queue()
    processes = [multiprocessing.Process(target=commit_until, args=(path, number, start, seconds, counts)) for number in range(1, writers + 1)]
    for process in processes:
        process.start()
    total = sum(counts.get() for _ in processes)
    for process in processes:
        process.join()
    return total / seconds


# ---- the others


def peer_rate(program, folder, writers, seconds):
    room = f"{folder}/peer"
    os.mkdir(room)
    try:
        said = subprocess.run([program, room, "sync", "quiet", str(writers), str(seconds)], capture_output=True, text=True, timeout=120).stdout
    finally:
        shutil.rmtree(room)
    return float(re.search(r"writers: (\d+) commits/s", said)[1])


def limit_rate(program, folder, seconds):
    return float(subprocess.run([program, f"{folder}/limit", str(seconds)], check=True, capture_output=True, text=True).stdout)


# ---- this store


def written_by(process):
    told = dict(line.split(": ") for line in open(f"/proc/{process.pid}/io").read().splitlines())
    return int(told["wchar"])


def begun(program, kind, path, part):
    return subprocess.Popen([program, kind, path, part], stdout=subprocess.PIPE, text=True)


def writing(program, kind, path, writers):
    """A process whose writers commit, for three seconds from when its file has its name."""
    process = begun(program, kind, path, str(writers))
    while not os.path.exists(f"{path}.{writers}"):
        time.sleep(0.01)
    time.sleep(0.7)
    return process


def own_rate(program, kind, path, writers):
    """Commits a second, and bytes written a commit."""
    process = writing(program, kind, path, writers)
    before, first = written_by(process), time.monotonic()
    time.sleep(1)
    bytes_a_second = (written_by(process) - before) / (time.monotonic() - first)
    said = process.communicate()[0]
    rate = float(re.search(r"^\d+ writers, in a file: (\d+) commits", said, re.M)[1])
    os.remove(f"{path}.{writers}")
    return rate, bytes_a_second / rate


def calls_of(program, kind, path, writers):
    """How often each call of the system was made in a second, and how many groups there were."""
    process, log = writing(program, kind, path, writers), f"{path}.log"
    watcher = subprocess.Popen(["strace", "-f", "-q", "-s", "0", "-o", log, "-p", str(process.pid)], stderr=subprocess.DEVNULL)
    time.sleep(1.2)
    watcher.send_signal(signal.SIGINT)
    watcher.wait()
    process.communicate()
    counts = collections.Counter(re.findall(r"^\d+ +(\w+)\(", open(log).read(), re.M))
    os.remove(log)
    os.remove(f"{path}.{writers}")
    return counts, (counts["fdatasync"] + counts["fsync"]) / 2


def openings_of(program, kind, path):
    said = subprocess.run([program, kind, path, "open"], check=True, capture_output=True, text=True).stdout
    return [int(took) / 1000 for took in re.findall(r"^opened in (\d+) microseconds", said, re.M)]


def memory_of(process):
    return int(re.search(r"VmRSS:\s*(\d+) kB", open(f"/proc/{process.pid}/status").read())[1]) * 1024


def held_by(program, kind, path):
    """The bytes that an open store takes in memory."""
    process = begun(program, kind, path, "hold")
    time.sleep(0.5)
    before = memory_of(process)
    time.sleep(1.5)
    after = memory_of(process)
    process.communicate()
    return after - before


# ---- the table


def row(*cells):
    print("| " + " | ".join(cells) + " |")


def play(program, kind, folder, peers, rounds, seconds):
    limit = f"{folder}/limit_program"
    subprocess.run(["gcc", "-O2", "-x", "c", "-", "-o", limit], input=LIMIT, check=True, text=True)
    rates, written = collections.defaultdict(list), collections.defaultdict(list)
    for number in range(rounds):
        rates["limit", 1].append(limit_rate(limit, folder, seconds))
        for writers in (1, 8):
            rate, a_commit = own_rate(program, kind, f"{folder}/store{number}", writers)
            rates["own", writers].append(rate)
            written[writers].append(a_commit)
            for peer in peers:
                rates[peer, writers].append(peer_rate(peers[peer], folder, writers, seconds))
            if "sqlite" not in peers:
                rates["sqlite", writers].append(sqlite_rate(f"{folder}/sqlite{number}.{writers}", writers, seconds))
        print("round", number, *(f"{name}/{writers}: {found[-1]:.0f}" for (name, writers), found in sorted(rates.items())), flush=True)
    return rates, written


def main():
    words = sys.argv[1:]
    peers = {}
    if "--peers" in words:
        at = words.index("--peers")
        where = os.path.abspath(words[at + 1])
        peers = {name: f"{where}/{name}" for name in sorted(os.listdir(where)) if os.access(f"{where}/{name}", os.X_OK) and "." not in name}
        del words[at : at + 2]
    kind = "blocks" if "--blocks" in words else "file"
    words = [word for word in words if word != "--blocks"]
    program, folder = os.path.abspath(words[0]), os.path.abspath(words[1])
    rounds = int(words[2]) if len(words) > 2 else 5
    seconds = float(words[3]) if len(words) > 3 else 2
    rates, written = play(program, kind, folder, peers, rounds, seconds)
    middle = {at: statistics.median(found) for at, found in rates.items()}
    own = {writers: middle["own", writers] for writers in (1, 8)}
    calls = {writers: calls_of(program, kind, f"{folder}/calls", writers) for writers in (1, 8)}
    openings = openings_of(program, kind, f"{folder}/full")
    held = held_by(program, kind, f"{folder}/full")

    print()
    row(f"A store in a file of {kind}" if kind == "blocks" else "A store in a plain file", "goal", "found")
    row("---", "---", "---")
    row(f"one writer, {own[1]:.0f} a second, beside the limit of two syncs, {middle['limit', 1]:.0f}", "0.95", f"{own[1] / middle['limit', 1]:.2f}")
    for name, goal in (("sqlite", "3"), ("rocks", "1.1"), ("lmdb", "-")):
        if (name, 8) in middle:
            row(f"eight writers, {own[8]:.0f} a second, times {name}, {middle[name, 8]:.0f}", goal, f"{own[8] / middle[name, 8]:.2f}")
    for name in ("sqlite", "rocks", "lmdb"):
        if (name, 1) in middle:
            row(f"one writer, times {name}, {middle[name, 1]:.0f}", "-", f"{own[1] / middle[name, 1]:.2f}")
    for writers, (counts, groups) in calls.items():
        asleep = counts["futex"] + counts["sched_yield"]
        most = ", ".join(f"{name} {count / groups:.1f}" for name, count in counts.most_common(6))
        row(f"calls of the system a group, {writers} writers, but for waits of threads ({most})", "4", f"{(sum(counts.values()) - asleep) / groups:.1f}")
    row("opening of a full store, ms", "30", f"{statistics.median(openings):.1f}")
    row(f"memory of an open full store, {held / 1e6:.1f} MB, beside the room of its rows and entries, {ROOM / 1e6:.1f} MB", "1.5", f"{held / ROOM:.2f}")
    row(f"the same beside the rows and entries that it has, {FOUND / 1e6:.1f} MB", "-", f"{held / FOUND:.2f}")
    for writers in (1, 8):
        a_commit = statistics.median(written[writers])
        row(f"bytes written a commit, {writers} writers, {a_commit:.0f}, beside a group of the log, {GROUP}", "3", f"{a_commit / GROUP:.2f}")


if __name__ == "__main__":
    main()
