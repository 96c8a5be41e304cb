#!/usr/bin/env python3
"""Harms the file of a small store, and asks `nsf-store` what it finds there.

Usage: tools/harm_store.py PROGRAM FOLDER flips|cuts|torn [--plain] [--killed] [--same] [TRIES [SEED]]
       tools/harm_store.py PROGRAM FOLDER every [--plain] [--killed] [K [FIRST]]

PROGRAM is the built program, FOLDER an empty folder. The store is a file of blocks (`new --blocks`), or a plain one with --plain. The
process that made it ends by itself, or is killed with --killed.

flips: one bit in a copy is flipped: in each block of the file in turn, at a place that is drawn. `check` and `dump` are asked.
every: likewise each K-th bit of the file, in order, from bit FIRST on. With the numbers from 0 to K - 1 as FIRST that is each one.
cuts: a copy is cut off or made longer, by blocks, sectors and bytes.
torn: the writes and syncs of a process are recorded (by strace, which must be there). At moments that are drawn the file is made anew as
a loss of power could leave it: all that was synced, and of each block of 4096 bytes that was written since one of: what it held, what it
holds, a half of each, or junk. `dump` must find a prefix of the commits with all that was acknowledged by then, and `check` a sound index.
A block that was written with the bytes that it had keeps them (an opening writes back each sector of a plain file, or the areas of a file
of blocks), but with --same it may be junk too.

Each copy is told as: `refused` (nothing is answered), `same` (nothing that is answered changed), or `silent`: rows are answered that are
not those that were acknowledged, and no error is told. Ends with 1 where something is silent.
"""
import os, queue, random, re, shutil, subprocess, sys
from functools import partial
from multiprocessing.pool import ThreadPool

BLOCK = 4096
JUNK = bytes((7 * i + 13) % 256 for i in range(BLOCK))
GEOMETRY = ["--pages", "1", "--entries", "64", "--slots", "4"]


def ask(program, *words):
    done = subprocess.run([program, *words], stdin=subprocess.DEVNULL, capture_output=True, text=True)
    return done.returncode, done.stdout, done.stderr


def script():
    """Lines for a store. The index is built between commits."""
    lines = []
    for number in range(1, 41):
        lines.append("begin")
        if number % 4 == 0:
            lines.append(f"delete {number} 0.{number // 4}")
        else:
            lines.append(f"insert {number} :{number:04x} :{number:08x}")
        lines += [f"step {number}", f"commit {number}"]
        if number == 5:
            lines.append("create")
        if number % 3 == 0:
            lines += ["build"] * 2
        if number % 2 == 0:
            lines.append("flush")
        if number % 13 == 0:
            lines += ["image"] * 3
    lines.append("flush")
    return lines


def tables_of(lines, answers):
    """The rows behind each commit, and the tickets of the commits."""
    tables, tickets, table = [{}], [], {}
    for line, answer in zip(lines, answers):
        words, told = line.split(), answer.split()
        if words[0] == "insert" and told[0] == "rid":
            table[told[1]] = (words[2], words[3])
        elif words[0] == "delete" and told[0] == "ok":
            del table[words[2]]
        elif words[0] == "commit":
            tickets.append(int(told[1]))
            tables.append(dict(table))
    return tables, tickets


def rows_in(text):
    rows = {}
    for line in text.splitlines():
        words = line.split()
        if words and words[0] == "row":
            rows[words[1]] = (words[2], words[3])
    return rows


def make(program, file, is_plain, is_killed):
    words = [] if is_plain else ["--blocks"]
    subprocess.run([program, "new", file, *GEOMETRY, *words], check=True)
    process = subprocess.Popen([program, "run", file], stdin=subprocess.PIPE, stdout=subprocess.PIPE, stderr=subprocess.DEVNULL, text=True)
    for line in script():
        process.stdin.write(line + "\n")
        process.stdin.flush()
        process.stdout.readline()
    if is_killed:
        process.kill()
    else:
        process.stdin.close()
    process.wait()


def judged(program, file, wanted):
    """What a harmed file is: by `dump`, and by `check`."""
    status, printed, _ = ask(program, "dump", file)
    checked = ask(program, "check", file)[0]
    if status != 0:
        return "refused" if not printed and checked != 0 else "half refused"
    if printed == wanted:
        return "same" if checked == 0 else "same, and told"
    return "silent" if checked == 0 else "silent but for check"


def count(counts, told, what):
    counts[told] = counts.get(told, 0) + 1
    if told not in ("refused", "same", "same, and told"):
        print(told, what, flush=True)


def flip_all(program, file, copy, places, counts):
    """Flips the bits of these numbers, one at a time: each processor has a copy of its own."""
    content, wanted = open(file, "rb").read(), ask(program, "dump", file)[1]
    copies = queue.Queue()
    for number in range(len(os.sched_getaffinity(0))):
        shutil.copy(file, f"{copy}{number}")
        copies.put(open(f"{copy}{number}", "r+b", buffering=0))

    def flip(place):
        harmed, (n, bit) = copies.get(), divmod(place, 8)
        harmed.seek(n)
        harmed.write(bytes([content[n] ^ 1 << bit]))
        told = judged(program, harmed.name, wanted)
        harmed.seek(n)
        harmed.write(content[n : n + 1])
        copies.put(harmed)
        return told, f"bit {bit} of byte {n}"

    with ThreadPool(copies.qsize()) as pool:
        for told, what in pool.imap_unordered(flip, places):
            count(counts, told, what)


def flips(program, file, copy, tries, counts):
    length = os.path.getsize(file)
    blocks = (length + BLOCK - 1) // BLOCK
    places = [min(turn % blocks * BLOCK + random.randrange(BLOCK), length - 1) * 8 + random.randrange(8) for turn in range(tries)]
    flip_all(program, file, copy, places, counts)


def every(program, file, copy, step, counts, first):
    places = range(first, 8 * os.path.getsize(file), step)
    print(f"{len(places)} of {8 * os.path.getsize(file)} bits", flush=True)
    flip_all(program, file, copy, places, counts)


def cuts(program, file, copy, tries, counts):
    content, wanted = open(file, "rb").read(), ask(program, "dump", file)[1]
    lengths = [0, 1, 511, 512, BLOCK, 2 * BLOCK]
    lengths += [len(content) - cut for cut in (1, 512, BLOCK)]
    lengths += [random.randrange(0, len(content) // BLOCK) * BLOCK for _ in range(tries)]
    for length in lengths:
        with open(copy, "wb") as harmed:
            harmed.write(content[:length])
        count(counts, judged(program, copy, wanted), f"cut to {length} bytes")
    for more in (512, BLOCK, 10 * BLOCK):
        with open(copy, "wb") as harmed:
            harmed.write(content + bytes(more))
        count(counts, judged(program, copy, wanted), f"{more} bytes more")


# ---- torn blocks


def record(program, file, log):
    """The content before, and the calls of a process on its file: writes, syncs, and the lines that it answered."""
    before = open(file, "rb").read()
    lines = script()
    words = ["strace", "-f", "-xx", "-s", "16777216", "-e", "trace=openat,pwrite64,write,fsync,fdatasync,close", "-o", log]
    process = subprocess.Popen([*words, program, "run", file], stdin=subprocess.PIPE, stdout=subprocess.PIPE, stderr=subprocess.DEVNULL, text=True)
    answers = []
    for line in lines:
        process.stdin.write(line + "\n")
        process.stdin.flush()
        answers.append(process.stdout.readline().strip())
    process.stdin.close()
    process.wait()
    return before, calls_in(log, file), *tables_of(lines, answers)


def bytes_of(text):
    return bytes.fromhex(text.replace("\\x", ""))


def calls_in(log, file):
    calls, held = [], set()
    for line in open(log):
        line = line.split(None, 1)[1]
        opened = re.match(r'openat\([^"]*"([^"]*)".*= (\d+)', line)
        if opened and os.path.basename(bytes_of(opened[1]).decode()) == os.path.basename(file):
            held.add(opened[2])
        written = re.match(r'pwrite64\((\d+), "([^"]*)", (\d+), (\d+)\)\s*= (\d+)', line)
        if written and written[1] in held:
            calls.append(("write", int(written[4]), bytes_of(written[2])[: int(written[5])]))
        synced = re.match(r"(?:fsync|fdatasync)\((\d+)\)\s*= 0", line)
        if synced and synced[1] in held:
            calls.append(("sync",))
        answered = re.match(r'write\(1, "([^"]*)"', line)
        if answered:
            calls.append(("told", bytes_of(answered[1]).decode()))
    return calls


def commits_told(calls, tickets):
    """How many commits were acknowledged by these calls."""
    printed = "".join(call[1] for call in calls if call[0] == "told")
    horizons = [int(number) for number in re.findall(r"^horizon (\d+)\n", printed, re.M)]
    return max((sum(ticket <= horizon for ticket in tickets) for horizon in horizons), default=0)


def torn_block(old, new):
    if old == new and "--same" not in sys.argv:
        return old
    half = BLOCK // 2
    return random.choice([old, new, new[:half] + old[half:], old[:half] + new[half:], JUNK[: len(old)]])


def rebuilt(before, calls):
    """The file as a loss of power behind these calls may leave it."""
    now, safe, loose = bytearray(before), bytearray(before), set()
    for call in calls:
        if call[0] == "write":
            at, data = call[1], call[2]
            now[at : at + len(data)] = data
            loose |= set(range(at // BLOCK, (at + len(data) - 1) // BLOCK + 1))
        elif call[0] == "sync":
            for n in loose:
                safe[n * BLOCK : (n + 1) * BLOCK] = now[n * BLOCK : (n + 1) * BLOCK]
            loose = set()
    for n in loose:
        part = slice(n * BLOCK, (n + 1) * BLOCK)
        safe[part] = torn_block(bytes(safe[part]), bytes(now[part]))
    return bytes(safe), len(loose)


def torn(program, file, copy, tries, counts):
    before, calls, tables, tickets = record(program, file, copy + ".log")
    print(f"{len(calls)} calls, {sum(c[0] == 'write' for c in calls)} writes, {sum(c[0] == 'sync' for c in calls)} syncs", flush=True)
    for _ in range(tries):
        stop = random.randrange(len(calls) + 1)
        image, loose = rebuilt(before, calls[:stop])
        with open(copy, "wb") as harmed:
            harmed.write(image)
        least = commits_told(calls[:stop], tickets)
        status, printed, said = ask(program, "dump", copy)
        checked, _, told = ask(program, "check", copy)
        if status != 0 or checked != 0:
            count(counts, "refused though it was a crash", f"behind call {stop}, {loose} loose blocks: {said.strip()} {told.strip()}")
        elif rows_in(printed) in tables[least:]:
            count(counts, "same", "")
        else:
            count(counts, "lost", f"behind call {stop}, {loose} loose blocks, {least} commits acknowledged")


def main():
    words = [word for word in sys.argv[1:] if not word.startswith("--")]
    program, folder, mode = os.path.abspath(words[0]), os.path.abspath(words[1]), words[2]
    tries = int(words[3]) if len(words) > 3 else 1000
    number = int(words[4]) if len(words) > 4 else 0
    random.seed(number)
    is_plain, is_killed = "--plain" in sys.argv, "--killed" in sys.argv
    file, copy, counts = f"{folder}/store", f"{folder}/copy", {}
    if mode == "torn":
        subprocess.run([program, "new", file, *GEOMETRY, *([] if is_plain else ["--blocks"])], check=True)
        torn(program, file, copy, tries, counts)
    else:
        make(program, file, is_plain, is_killed)
        modes = {"flips": flips, "every": partial(every, first=number), "cuts": cuts}
        modes[mode](program, file, copy, tries, counts)
    print(", ".join(f"{told}: {number}" for told, number in sorted(counts.items())))
    sys.exit(any(told not in ("refused", "same", "same, and told") for told in counts))


if __name__ == "__main__":
    main()
