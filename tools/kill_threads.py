#!/usr/bin/env python3
"""Kills `nsf-threads --file` at random moments, and asks the next process for every commit that was printed as safe.

Usage: tools/kill_threads.py STORE_PROGRAM THREADS_PROGRAM FOLDER [KILLS [SEED [ROWS]]]

The programs are built ones, of `nsf-store` and `nsf-threads`; FOLDER is an empty folder for the stores. Each process lets up to eight
writers put and delete rows beside builder, cleaner and flusher, until it is killed with SIGKILL; some end before. `nsf-store check`
must call what is left sound, and `nsf-store dump` must show each row that was printed as safe, none of those that were printed as
deleted, and of each writer one more commit at most, whole or not at all. Then a second process goes on, to its end; its index must
be that of the rows. Now and then the index is dropped, so that the next process builds it anew.

Without ROWS each eighth run begins a store of 6,000 rows. With ROWS one store of so many rows is loaded. All runs are over it, and
each fifth is followed by one that goes to its end; the others go on with what a kill left.

A killed process leaves what the kernel holds of its file: this tries the program, not a loss of power.
"""
import os, random, subprocess, sys, threading, time


A_RUN_TO_THE_END = 5


def output(words, text=""):
    done = subprocess.run(words, input=text, capture_output=True, text=True)
    if done.returncode != 0:
        sys.exit(f"{words}: status {done.returncode}: {done.stdout}{done.stderr}")
    return done.stdout


def key(writer, change):
    return f":{writer:04x}{change:04x}"


class Run:
    """What a process printed: the rows that are safe, those that were deleted, and the change of each."""

    def __init__(self, printed):
        self.rows, self.gone, self.last = {}, set(), None
        # (a line that was cut off counts for nothing)
        for line in printed.split("\n")[:-1]:
            words = line.split()
            if words[0] != "safe":
                self.last = line
                continue
            place, writer, change = words[3], int(words[4][1:5], 16), int(words[4][5:9], 16)
            self.rows[(place, words[4])] = (writer, change)
            if len(words) > 6:
                self.gone.add((words[7], key(writer, change - 1)))


def start(threads, file, seconds):
    words = [threads, "--file", file, "--writers", str(random.randint(1, 8)), "--changes", str(random.randint(8, 60))]
    process = subprocess.Popen(words, stdout=subprocess.PIPE, stderr=subprocess.PIPE, text=True)
    timer = threading.Timer(seconds, process.kill)
    timer.start()
    printed, said = process.communicate()
    timer.cancel()
    if process.returncode not in (0, -9):
        sys.exit(f"the threads ended with {process.returncode}: {said}")
    return Run(printed), process.returncode == -9


def make(store, file):
    """A new store, with rows enough that a build over them takes its time."""
    script = ""
    output([store, "new", file, "--pages", "256", "--entries", "32768", "--slots", str(random.choice([8, 64]))])
    for txn in range(1, 101):
        inserts = "".join(f"insert {txn} =row{row} =\n" for row in range(60))
        script += f"begin\n{inserts}commit {txn}\nflush\n"
    output([store, "run", file], script)


def load(store, file, count):
    """A new store of so many rows, with room for those of the writers."""
    output([store, "new", file, "--rows", str(count + 4096)])
    with open(file + ".csv", "w") as text:
        text.write("key,body\n")
        text.writelines(f"=row{row * 2654435761 % 4294967296},=\n" for row in range(count))
    output([store, "load", file, file + ".csv"])
    os.remove(file + ".csv")


class Found:
    """What a dump shows: the writers' rows and entries, and of all others how many there are, and a sum of what they say."""

    def __init__(self, store, file):
        self.rows, self.live, self.life = set(), set(), None
        self.others, self.shown = [0, 0], [0, 0]
        with subprocess.Popen([store, "dump", file], stdout=subprocess.PIPE, text=True) as process:
            for line in process.stdout:
                words = line.split()
                if words[0] == "row":
                    self.note(words[1], words[2], self.rows, self.others)
                elif words[0] == "live":
                    self.note(words[2], words[1], self.live, self.shown)
                elif words[0] == "life":
                    self.life = words[1]
        if process.returncode != 0:
            sys.exit(f"a dump ended with {process.returncode}")

    def note(self, place, name, ours, others):
        if len(name) == len(key(0, 0)) and name.startswith(":000"):
            ours.add((place, name))
        else:
            others[0] += 1
            others[1] = (others[1] + hash((place, name))) % 2**61


def check(store, file, base, run):
    """What is found must be what was there before, and what was printed, and of each writer at most one commit more."""
    if output([store, "check", file]) != "sound\n":
        sys.exit("the store isn't sound")
    found = Found(store, file)
    rows, live = found.rows, found.live
    if found.others != base.others:
        sys.exit(f"rows that no writer touches: {base.others}, now {found.others}")
    if run.gone & rows:
        sys.exit(f"deleted, and there: {run.gone & rows}")
    more = {}
    for place, name in rows - base.rows - set(run.rows):
        writer, change = int(name[1:5], 16), int(name[5:9], 16)
        if writer in more:
            sys.exit(f"two commits of writer {writer} that were not printed")
        more[writer] = change
    for row in (base.rows | set(run.rows)) - run.gone - rows:
        writer, change = run.rows.get(row, (None, None))
        if writer is None or change % 4 != 1 or more.get(writer) != change + 1:
            sys.exit(f"lost: {row}")
    for row, (writer, change) in run.rows.items():
        if change % 4 == 1 and more.get(writer) == change + 1 and row in rows:
            sys.exit(f"half a commit: {row}")
    if not live <= rows or found.life == "complete" and (live != rows or found.shown != found.others):
        sys.exit("the entries aren't those of the rows")
    return found


def main():
    store, threads, folder = (os.path.abspath(word) for word in sys.argv[1:4])
    kills = int(sys.argv[4]) if len(sys.argv) > 4 else 25
    random.seed(int(sys.argv[5]) if len(sys.argv) > 5 else 1)
    many = int(sys.argv[6]) if len(sys.argv) > 6 else None
    counts = {"kills": 0, "ended": 0, "safe": 0, "building": 0, "runs": 0}
    file, base, longest = f"{folder}/store0", None, many / 60_000 if many else 0.4
    if many:
        load(store, file, many)
        base = Found(store, file)
    while counts["kills"] < kills:
        if not many and counts["runs"] % 8 == 0:
            file = f"{folder}/store{counts['runs']}"
            make(store, file)
            base = Found(store, file)
        counts["runs"] += 1
        run, was_killed = start(threads, file, random.random() * longest)
        counts["kills" if was_killed else "ended"] += 1
        counts["safe"] += len(run.rows)
        base = check(store, file, base, run)
        counts["building"] += base.life == "building"
        if many:
            print(" ".join(f"{name} {count}" for name, count in counts.items()), f"life {base.life}", flush=True)
            if counts["runs"] % A_RUN_TO_THE_END != 0:
                continue
        run = Run(output([threads, "--file", file, "--writers", "3", "--changes", "11"]))
        counts["safe"] += len(run.rows)
        base = check(store, file, base, run)
        count = base.others[0] + len(base.rows)
        if run.last != f"rows {count} shown {count} same yes" or base.life != "complete":
            sys.exit(f"a second run ended with {run.last}, {base.life}")
        if many or random.random() < 0.6:
            output([store, "run", file], "drop\nflush\n")
    print(" ".join(f"{name} {count}" for name, count in counts.items()))


if __name__ == "__main__":
    main()
