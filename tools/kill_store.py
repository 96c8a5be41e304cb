#!/usr/bin/env python3
"""Kills `nsf-store run` at random moments, and asks the next process for every commit that was acknowledged.

Usage: tools/kill_store.py [--blocks] PROGRAM FOLDER [KILLS [SEED]]

PROGRAM is the built program (crates/nsf_store/out/nsf_store, which `rt run -- --help` in crates/nsf_store makes), FOLDER an empty
folder for the stores. Each process begins transactions, puts and deletes rows, commits, builds, cleans, takes images and flushes,
until it is killed with SIGKILL; some are killed while they open the store, and some flush behind each commit (`--durable`). A build of
one store goes on faster than that of another. What the next one finds must be a prefix of the commits with all that a flush acknowledged, and each live entry must name its row. With --blocks the
stores are in files of blocks.

A killed process leaves what the kernel holds of its file: this tries the program, not a loss of power.
"""
import os, random, subprocess, sys, threading, time


# How many transactions in one are followed by a step of the builder: of a store with few, kills come amid its build.
PACES = (0.01, 0.05, 0.8)


class Dead(Exception):
    """The process ended before it answered."""


class Store:
    def __init__(self, program, file, durable=False):
        self.durable = durable
        words = [program, "run", file] + ["--durable"] * durable
        self.process = subprocess.Popen(words, stdin=subprocess.PIPE, stdout=subprocess.PIPE, stderr=subprocess.PIPE)

    def line(self):
        line = self.process.stdout.readline()
        if not line.endswith(b"\n"):
            raise Dead
        return line.decode().strip()

    def send(self, command):
        try:
            self.process.stdin.write(command.encode() + b"\n")
            self.process.stdin.flush()
        except (BrokenPipeError, OSError) as error:
            raise Dead from error

    def ask(self, command):
        self.send(command)
        return self.line()

    def dump(self):
        self.send("dump")
        rows, live = {}, set()
        while True:
            words = self.line().split()
            if words[0] == "row":
                rows[words[1]] = (words[2], words[3])
            elif words[0] == "live":
                live.add((words[1], words[2]))
            elif words[0] == "life":
                return rows, live, words[1:]

    def kill(self):
        self.process.kill()
        self.process.wait()
        for stream in (self.process.stdin, self.process.stdout, self.process.stderr):
            try:
                stream.close()
            except OSError:
                pass


def applied(table, changes):
    table = dict(table)
    for place, row in changes.items():
        if row is None:
            table.pop(place, None)
        else:
            table[place] = row
    return table


class Run:
    """What was asked of one process, over the table that it found."""

    def __init__(self, base):
        self.base, self.commits, self.horizon, self.pending = base, [], -1, None

    def states(self):
        """The tables that may be found behind it."""
        table, tables, least = self.base, [self.base], 0
        for ticket, changes in self.commits:
            table = applied(table, changes)
            tables.append(table)
            if ticket <= self.horizon:
                least = len(tables) - 1
        # (a commit that was sent and not answered may be there too)
        if self.pending is not None:
            tables.append(applied(table, self.pending))
        return tables[least:]


def flushed(run, answer):
    words = answer.split()
    if words[0] != "horizon":
        sys.exit(f"a flush was answered {words}")
    run.horizon = int(words[1])


def transaction(store, run, table, count):
    txn, changes, mine = store.ask("begin").split()[1], {}, dict(table)
    for _ in range(random.randint(1, 4)):
        if mine and (random.random() < 0.25 or len(mine) > 900):
            place = random.choice(list(mine))
            if store.ask(f"delete {txn} {place}") == "ok":
                changes[place] = None
                del mine[place]
        else:
            count += 1
            row = (f":{count % 97:04x}", f":{count:08x}")
            words = store.ask(f"insert {txn} {row[0]} {row[1]}").split()
            if words[0] == "rid":
                changes[words[1]] = mine[words[1]] = row
        store.ask(f"step {txn}")
    run.pending = changes
    words = store.ask(f"commit {txn}").split()
    if words[0] != "ticket":
        sys.exit(f"a commit was answered {words}")
    run.commits.append((int(words[1]), changes))
    run.pending = None
    if store.durable:
        flushed(run, store.line())
    return mine, count


def work(store, run, life, counts, pace):
    table, create_at, number = dict(run.base), random.randint(5, 60), 0
    while True:
        number += 1
        if life[0] == "none" and number == create_at:
            store.ask("create")
        table, counts["rows"] = transaction(store, run, table, counts["rows"])
        counts["commits"] += 1
        if random.random() < pace:
            store.ask("build 1")
        if random.random() < 0.03:
            store.ask("image")
        if random.random() < 0.15:
            store.ask("clean 1")
        if random.random() < 0.25:
            flushed(run, store.ask("flush"))
            counts["acknowledged"] += 1


def check(run, rows, live, life):
    if run is not None and rows not in run.states():
        sys.exit(f"lost: behind horizon {run.horizon} and {len(run.commits)} commits no prefix of them was found")
    pairs = {(row[0], place) for place, row in rows.items()}
    if not live <= pairs:
        sys.exit(f"entries without a row: {live - pairs}")
    if life == ["complete"] and live != pairs:
        sys.exit("the index is complete and lacks entries")


def look(program, file, run):
    """What the last process on a store left is checked too."""
    if run is not None:
        store = Store(program, file)
        check(run, *store.dump())
        store.kill()


def main():
    words = [word for word in sys.argv[1:] if word != "--blocks"]
    blocks = [word for word in sys.argv[1:] if word == "--blocks"]
    program, folder = os.path.abspath(words[0]), os.path.abspath(words[1])
    kills = int(words[2]) if len(words) > 2 else 100
    random.seed(int(words[3]) if len(words) > 3 else 1)
    counts = {"kills": 0, "early": 0, "commits": 0, "acknowledged": 0, "building": 0, "complete": 0, "rows": 0}
    file, run = None, None
    for kill in range(kills):
        if kill % 15 == 0:
            look(program, file, run)
            file, run, pace = f"{folder}/store{kill}", None, random.choice(PACES)
            subprocess.run([program, "new", file, "--pages", "16", "--entries", "1024", "--slots", "8", *blocks], check=True)
        elif random.random() < 0.3:
            early = Store(program, file)
            time.sleep(random.random() * 0.02)
            early.kill()
            counts["early"] += 1
        store = Store(program, file, random.random() < 0.3)
        try:
            rows, live, life = store.dump()
        except Dead:
            sys.exit(f"the store can't be opened: {store.process.stderr.read().decode()}")
        check(run, rows, live, life)
        counts["building"] += life[0] == "building"
        counts["complete"] += life == ["complete"]
        run = Run(rows)
        timer = threading.Timer(random.random() * 0.25, store.process.kill)
        timer.start()
        try:
            work(store, run, life, counts, pace)
        except Dead:
            pass
        timer.cancel()
        store.kill()
        if store.process.returncode != -9:
            sys.exit(f"the store ended by itself: {store.process.returncode}")
        counts["kills"] += 1
    look(program, file, run)
    print(" ".join(f"{name} {count}" for name, count in counts.items()))


if __name__ == "__main__":
    main()
