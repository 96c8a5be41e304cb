#!/usr/bin/env python3
"""Tries the programs on what only real processes show. Usage: tools/check_programs.py FOLDER, which has `nsf-store`, `nsf-replay` and
`nsf-threads`, as launchers or as built. Each function below plays one case in a folder of its own, and raises where something came
otherwise. It prints a line for each that failed, and in the end `N passed, M failed`; its status is 1 where one failed.

What it needs of the machine: Linux, and a C compiler `cc` for the cases that refuse memory (these are passed over without one).
"""
import os, pathlib, pty, resource, shutil, signal, subprocess, sys, tempfile, time

HERE = pathlib.Path(sys.argv[1]).resolve() if len(sys.argv) > 1 else pathlib.Path.cwd()
STORE, REPLAY, THREADS = (str(HERE / name) for name in ("nsf-store", "nsf-replay", "nsf-threads"))
SECTOR = 512

# Refuses the allocation of a number, and no other.
REFUSING = r"""
#define _GNU_SOURCE
#include <dlfcn.h>
#include <stdlib.h>
#include <errno.h>
static long count, wanted = -1;
static int refuses(void) {
    if (wanted < 0) { char *text = getenv("REFUSED"); wanted = text ? atol(text) : 0; }
    return wanted && ++count == wanted;
}
void *malloc(size_t n) {
    static void *(*real)(size_t); if (!real) real = dlsym(RTLD_NEXT, "malloc");
    if (refuses()) { errno = ENOMEM; return 0; } return real(n);
}
void *realloc(void *p, size_t n) {
    static void *(*real)(void *, size_t); if (!real) real = dlsym(RTLD_NEXT, "realloc");
    if (refuses()) { errno = ENOMEM; return 0; } return real(p, n);
}
int posix_memalign(void **p, size_t a, size_t n) {
    static int (*real)(void **, size_t, size_t); if (!real) real = dlsym(RTLD_NEXT, "posix_memalign");
    if (refuses()) return ENOMEM; return real(p, a, n);
}
void *aligned_alloc(size_t a, size_t n) {
    static void *(*real)(size_t, size_t); if (!real) real = dlsym(RTLD_NEXT, "aligned_alloc");
    if (refuses()) { errno = ENOMEM; return 0; } return real(a, n);
}
"""


class Passed(Exception):
    """This machine lacks what a case needs."""


def run(*words, feed="", env=None, limit=None):
    def narrow():
        if limit:
            resource.setrlimit(resource.RLIMIT_AS, (limit, limit))
    feed = feed.encode() if isinstance(feed, str) else feed
    return subprocess.run(list(words), input=feed, capture_output=True, timeout=120,
                          env={**os.environ, **(env or {})}, preexec_fn=narrow)


def store(*words, **more):
    return run(STORE, *words, **more)


def want(done, status, out=None, err=None):
    """What came of a run: its status, just this output, and this within what it says."""
    said = done.stderr.decode(errors="replace")
    assert done.returncode == status, f"status {done.returncode}, and not {status}: {done.stdout[-200:]} {said[-400:]}"
    if out is not None:
        assert done.stdout.decode() == out, f"printed {done.stdout[-300:]}"
    if err is not None:
        assert err in said, f"said {said[-400:]}"
    return done


def made(name, *size):
    want(store("new", name, *(size or ("--rows", "50"))), 0, "", "")


def begin(*words):
    return subprocess.Popen([STORE, *words], stdin=subprocess.PIPE, stdout=subprocess.PIPE, stderr=subprocess.PIPE)


def say(child, line):
    """Its next answer to a line."""
    child.stdin.write(line.encode() + b"\n")
    child.stdin.flush()
    return child.stdout.readline().decode().strip()


def end(child):
    """What it says once its input has ended."""
    child.stdin.close()
    said = child.stderr.read().decode()
    child.stdout.close()
    child.stderr.close()
    child.wait()
    return said


def refusing():
    """The library that refuses an allocation."""
    if shutil.which("cc") is None:
        raise Passed
    pathlib.Path("refusing.c").write_text(REFUSING)
    subprocess.run(["cc", "-shared", "-fPIC", "-o", "refusing.so", "refusing.c", "-ldl"], check=True)
    return str(pathlib.Path("refusing.so").resolve())


def refused(library, number, *words, feed=""):
    return store(*words, feed=feed, env={"LD_PRELOAD": library, "REFUSED": str(number)})


# ---- a session that waits

def waited_for(name, change):
    """A session that waited for the file of this name while it was changed so, and its first lines."""
    holder = begin("run", name)
    assert say(holder, "begin") == "txn 1"
    waiting = begin("run", name, "--wait", "20")
    time.sleep(0.4)
    change()
    holder.kill()
    end_quietly(holder)
    for line, answer in (("begin", "txn 1"), ("insert 1 =new =store", "rid 0.0")):
        assert say(waiting, line) == answer
    waiting.stdin.write(b"commit! 1\n")
    waiting.stdin.flush()
    assert [waiting.stdout.readline() for _ in range(2)] == [b"ticket 2\n", b"horizon 2\n"]
    return waiting


def end_quietly(child):
    for stream in (child.stdin, child.stdout, child.stderr):
        try:
            stream.close()
        except OSError:
            pass
    child.wait()


def two_stores():
    made("w")
    made("n")
    want(store("run", "w", feed="begin\ninsert 1 =old =store\ncommit 1\n"), 0)


def swap():
    os.rename("w", "old")
    os.rename("n", "w")


def a_wait_opens_the_file_that_has_the_name_then():
    two_stores()
    waiting = waited_for("w", swap)
    assert say(waiting, "backup copy") == "horizon 2"
    assert end(waiting) == ""
    want(store("export", "copy"), 0, "key,body\nnew,store\n")


def a_copy_is_never_of_another_file():
    two_stores()
    waiting = waited_for("w", swap)
    os.rename("w", "moved")
    os.rename("old", "w")
    assert say(waiting, "backup copy") == "refused backup"
    said = end(waiting)
    assert "no longer has its name" in said and "another was put in its place" in said, said
    assert not os.path.exists("copy")
    want(store("export", "moved"), 0, "key,body\nnew,store\n")


# ---- the length of a file and its geometry

def full_store():
    """A plain store whose current half is A, with two commits behind the image."""
    made("sb")
    script = "".join(f"begin\ninsert {n} =k{n} =b\ncommit! {n}\n" for n in (1, 2))
    want(store("run", "sb", feed=script + "image\nimage\n"), 0)
    want(store("run", "sb", feed=script), 0)
    return pathlib.Path("sb").read_bytes()


def no_bit_of_the_geometry_is_silent():
    whole = full_store()
    rows = want(store("export", "sb"), 0).stdout
    silent = []
    for bit in range(96):
        harmed = bytearray(whole)
        harmed[12 + bit // 8] ^= 1 << bit % 8
        pathlib.Path("sb").write_bytes(harmed)
        checked, shown = store("check", "sb"), store("export", "sb")
        if checked.returncode == 0:
            silent.append(bit)
            assert shown.stdout == rows, f"bit {bit} changes the rows, and is not told"
        for verb in (("run", "sb"), ("build", "sb"), ("stat", "sb"), ("dump", "sb"), ("backup", "sb", "copy"), ("load", "sb", "-", "--no-header")):
            assert checked.returncode == 0 or store(*verb).returncode != 0, f"bit {bit} is told, but not by {verb[0]}"
        assert pathlib.Path("sb").read_bytes() == bytes(harmed) or checked.returncode == 0, f"bit {bit}: the file was changed"
        for left in ("copy",):
            if os.path.exists(left):
                os.remove(left)
    assert len(silent) <= 2, f"bits that are not told: {silent}"


def a_longer_file_is_refused_and_salvaged():
    whole = full_store()
    pathlib.Path("sb").write_bytes(whole + bytes(SECTOR))
    for verb in ("check", "stat", "dump", "export", "run", "build"):
        want(store(verb, "sb"), 1, None, "sectors, and the store that it begins with")
    want(store("backup", "sb", "copy"), 1, "", "sectors, and the store that it begins with")
    want(run(THREADS, "--file", "sb"), 1, None, "sectors, and the store that it begins with")
    want(store("salvage", "sb", "saved"), 0)
    want(store("export", "saved"), 0, "key,body\nk1,b\nk2,b\nk1,b\nk2,b\n")


# ---- drafts

def a_draft_that_is_left_gives_way():
    made("old")
    for make in (("new", "z"), ("new", "z", "--blocks"), ("backup", "old", "z"), ("migrate", "old", "z", "--blocks"), ("salvage", "old", "z")):
        for left in (b"", bytes(700), b"NSFINDEX" + bytes(504), b"NSFBLOCK" + bytes(9000)):
            pathlib.Path("z.nsf-draft").write_bytes(left)
            want(store(*make), 0)
            assert not os.path.exists("z.nsf-draft")
            want(store("check", "z"), 0, "sound\n")
            os.remove("z")
    pathlib.Path("z.nsf-draft").write_bytes(b"a letter")
    want(store("new", "z"), 1, "", "no part of a store")
    assert pathlib.Path("z.nsf-draft").read_bytes() == b"a letter"


def a_store_beside_a_making_stays():
    for name in ("z.new", "z.draft"):
        made(name)
        want(store("run", name, feed="begin\ninsert 1 =kept =here\ncommit! 1\n"), 0)
        for make in (("new", "z"), ("new", "z", "--blocks"), ("backup", name, "z")):
            want(store(*make), 0)
            os.remove("z")
            assert b"6b657074" in store("dump", name).stdout, f"{make[0]} took the row of {name}"
        os.remove(name)


def a_killed_making_gives_way():
    for wait in (0.002, 0.005, 0.01, 0.02, 0.04):
        child = subprocess.Popen([STORE, "new", "big", "--rows", "60000"])
        time.sleep(wait)
        child.kill()
        child.wait()
        if not os.path.exists("big"):
            want(store("new", "big"), 0)
        assert not os.path.exists("big.nsf-draft")
        os.remove("big")


def one_of_many_makings_has_the_name():
    for _ in range(5):
        makings = [subprocess.Popen([STORE, "new", "one"], stderr=subprocess.DEVNULL) for _ in range(12)]
        assert sorted(making.wait() for making in makings) == [0] + [1] * 11
        want(store("check", "one"), 0, "sound\n")
        assert not os.path.exists("one.nsf-draft")
        os.remove("one")


def no_refused_allocation_leaves_a_draft():
    library = refusing()
    made("s")
    for make in (("new", "z", "--rows", "50", "--blocks"), ("backup", "s", "z"), ("migrate", "s", "z", "--blocks"), ("salvage", "s", "z", "--blocks")):
        for number in range(1, 1000):
            done = refused(library, number, *make)
            assert not os.path.exists("z.nsf-draft"), f"{make[0]}, allocation {number}: {done.stderr}"
            said = done.stderr.decode()
            if os.path.exists("z"):
                assert done.returncode == 0 or "it is made, and whole" in said, f"{make[0]}, allocation {number}: {said}"
                os.remove("z")
                if done.returncode == 0 and not said:
                    break
            else:
                assert done.returncode == 1 and "out of memory" in said and "Kind(" not in said, f"{make[0]}, allocation {number}: {said}"


# ---- little memory

def a_line_without_end_takes_little_room():
    made("s")
    with open("/dev/zero", "rb") as endless:
        child = subprocess.Popen([STORE, "run", "s"], stdin=endless, stdout=subprocess.PIPE, stderr=subprocess.PIPE)
        time.sleep(2)
        pages = int(pathlib.Path(f"/proc/{child.pid}/statm").read_text().split()[1])
        child.kill()
        child.communicate()
    assert pages * os.sysconf("SC_PAGE_SIZE") < 100 << 20, f"{pages} pages"
    with open("/dev/zero", "rb") as endless:
        done = subprocess.run([STORE, "load", "s", "-", "--no-header"], stdin=endless, capture_output=True, timeout=60)
    want(done, 3, "loaded 0\nrefused 1\n", "line 1: the record is longer than 1048576 bytes")
    assert want(store("load", "s", "/dev/zero"), 1).stderr == b"nsf-store: /dev/zero: its header is longer than 1048576 bytes\n"


def a_script_is_read_no_further_than_it_goes():
    for words in ((), ("--crash-map",)):
        endless = subprocess.Popen(["yes", "dump"], stdout=subprocess.PIPE)
        done = subprocess.run([REPLAY, *words], stdin=endless.stdout, capture_output=True, timeout=60)
        endless.stdout.close()
        endless.wait()
        want(done, 1, "refused 22 BadScript 10001\n", "")
        with open("/dev/zero", "rb") as endless:
            done = subprocess.run([REPLAY, *words], stdin=endless, capture_output=True, timeout=60)
        want(done, 1, "", "nsf: line 1 of the script is longer than 65535 bytes")
        want(run(REPLAY, *words, feed="begin\n#" + "c" * 65_535 + "\nfind\n"), 1, "", "line 2 of the script is longer")
        want(run(REPLAY, *words, feed="begin\n#" + "c" * 65_534 + "\nfind\n"), 1, "refused 22 BadScript 3\n", "")


def a_long_line_is_answered_as_a_short_one():
    made("s")
    long = "a" * 3_000_000
    script = [("begin", "txn 1"), (f"insert 1 ={long} =b", "refused 13 KeyTooLong"), (f"insert 1 :{'61' * 1_500_000} =b", "refused 13 KeyTooLong"),
              (f"insert 1 :{'61' * 1_500_000}6 =b", "refused 22 BadScript 4"), (f"insert 1 =a ={long}", "refused 14 BodyTooLong"),
              (f"#{long} {chr(7)}", None), (f"insert 1 =a =b {long}", "refused 22 BadScript 7"), (f"commit {'1' * 3_000_000}", "refused 22 BadScript 8"),
              ("insert 1 =a =b", "rid 0.0"), ("commit! 1", "ticket 2\nhorizon 2")]
    done = store("run", "s", feed="".join(line + "\n" for line, _ in script), limit=1 << 28)
    answers = "".join(answer + "\n" for _, answer in script if answer)
    shown = done.stdout.decode()
    # which number a refusal has is not looked at here
    assert [line.split()[::2] for line in shown.splitlines()] == [line.split()[::2] for line in answers.splitlines()], shown[-400:]


def a_record_that_is_too_long_ends_the_load():
    made("s")
    text = "key,body\nant,1\n" + "b" * (2 << 20) + ",2\ncow,3\n"
    done = want(store("load", "s", "-", feed=text), 3, "loaded 1\nrefused 1\n", "line 3: the record is longer than 1048576 bytes, and nothing behind it is read")
    assert b"cow" not in done.stderr
    text = "key,body\nant,1\n" + "b" * 5000 + ",2\n\"" + "c\n" * 300 + "\",3\ndog,4\n"
    want(store("load", "s", "-", feed=text), 3, "loaded 2\nrefused 2\n", "line 4: the key is longer than 56 bytes")


def want_of_memory_is_told_as_that():
    library = refusing()
    made("s")
    for number in range(1, 400):
        done = refused(library, number, "stat", "s")
        said = done.stderr.decode()
        assert done.returncode in (0, 1), f"allocation {number}: status {done.returncode}: {said}"
        assert done.returncode == 0 or said.endswith("out of memory\n"), f"allocation {number}: {said}"
        assert "Kind(" not in said, f"allocation {number}: {said}"


# ---- what is made is told

def a_file_that_is_made_is_told():
    made("s")
    for make in (("backup", "s", "z"), ("migrate", "s", "z", "--blocks"), ("salvage", "s", "z")):
        with open("/dev/full", "wb") as full:
            done = subprocess.run([STORE, *make], stdout=full, stderr=subprocess.PIPE)
        assert done.returncode == 1 and b"z: it is made, and whole" in done.stderr, done.stderr
        want(store("check", "z"), 0, "sound\n")
        os.remove("z")


def a_moved_index_that_does_not_fit_is_told():
    # two rows and an index of version 1 would be needed: a store of version 2 shows the same by a changed key
    made("s")
    want(store("run", "s", feed="begin\ninsert 1 =ant =x\ncommit 1\ncreate\nbuild 3\n"), 0)
    whole = bytearray(pathlib.Path("s").read_bytes())
    places = [n for n in range(len(whole)) if whole[n:n + 3] == b"ant"]
    assert places
    for place in places:
        harmed = bytearray(whole)
        harmed[place] = ord("b")
        pathlib.Path("s").write_bytes(harmed)
        if store("check", "s").returncode == 0:
            continue
        done = store("migrate", "s", "z", "--blocks")
        if done.returncode == 0:
            assert b"its index isn't that of its rows" in done.stderr, done.stderr
            os.remove("z")


def other_files_are_not_drawn_over():
    made("s")
    whole = pathlib.Path("s").read_bytes()
    script = "begin\ninsert 1 =a =b\ncommit 1\nflush\n"
    want(run(REPLAY, "--crash-map", "--svg", "s", feed=script), 1, "", "nsf: s is no picture, and is not written over")
    assert pathlib.Path("s").read_bytes() == whole
    for _ in range(2):
        want(run(REPLAY, "--crash-map", "--svg", "map", feed=script), 0, None, "")
        assert pathlib.Path("map").read_bytes().startswith(b"<svg")
    pathlib.Path("map").write_bytes(b"")
    want(run(REPLAY, "--crash-map", "--svg", "map", feed=script), 0, None, "")


def a_file_of_blocks_is_told_to_the_threads():
    made("b", "--rows", "50", "--blocks")
    want(run(THREADS, "--file", "b"), 1, "", "it is a file of blocks, and a plain one is wanted")


# ---- lines that are skipped, and terminals

def what_is_skipped_ends_the_input():
    made("s")
    want(store("run", "s", feed="create\nbuild\nbuild\n"), 0)
    script = "begin\ninsert 1 =fox =x\ncommit! 1\nbegin\n"
    want(store("run", "s", "--stop-on-refusal", feed=script), 3, "txn 1\nrid 0.0\nskipped\n", "line 3 was skipped")
    want(store("run", "s", "--stop-on-refusal", feed="begin\ninsert 1 =fox =x\nstep 1\nstep 1\ncommit! 1\n"), 0)
    want(store("run", "s", "--stop-on-refusal", feed="crash old\n"), 3, "skipped\n")
    want(store("run", "s", feed="crash old\n"), 0, "skipped\n", "")


def at_terminal(words, lines, last):
    """What a session at a terminal shows of these lines, once this came, and then it is interrupted."""
    child, terminal = pty.fork()
    if child == 0:
        os.execv(STORE, [STORE, *words])
    shown = b""

    def until(text):
        nonlocal shown
        stop = time.time() + 20
        while text not in shown and time.time() < stop:
            try:
                shown += os.read(terminal, 4096)
            except OSError:
                break
        assert text in shown, shown
    until(b"> ")
    for line in lines:
        os.write(terminal, line.encode() + b"\n")
    until(last)
    time.sleep(0.1)
    os.write(terminal, b"\x03")
    os.waitpid(child, 0)
    os.close(terminal)
    return shown


def an_interrupt_loses_no_commit():
    made("s")
    lines = ["begin", "insert 1 =cat =meow", "commit 1"]
    at_terminal(["run", "s"], lines, b"horizon")
    want(store("export", "s"), 0, "key,body\ncat,meow\n")
    at_terminal(["run", "s", "--lazy"], lines, b"ticket 4")
    want(store("export", "s"), 0, "key,body\ncat,meow\n")
    want(store("run", "s", "--lazy", "--durable"), 2)


# ---- refusals

# Transaction 1 commits three rows; transaction 2 inserts another one.
ROWS = ["begin", "insert 1 =ant =1", "insert 1 =bee =2", "insert 1 =bee =3", "commit 1"]
OPEN = [*ROWS, "begin", "insert 2 =cow =4"]
BUILT = [*ROWS, "create", "build 9"]

# The size of a store, what is done first, and lines each of which is refused then; of each how.
REFUSALS = [
    ((), ["begin"] * 16, {"begin": "7 TooManyTxns"}),
    (("--pages", "2"), ["begin", *["insert 1 =a =b"] * 64], {line: "8 TooManyChanges" for line in ("insert 1 =a =b", "delete 1 0.0", "update 1 0.0 =c =d")}),
    ((), OPEN, {line: "9 NoSuchTxn" for line in (
        "insert 5 =a =b", "delete 5 0.0", "update 5 0.0 =a =b", "step 5", "undo 5", "end 5", "commit 5", "commit! 5", "commit 1")}),
    ((), OPEN, {line: "10 NoSuchRow" for line in ("delete 2 0.9", "update 2 0.9 =a =b", "delete 2 9.0")}),
    ((), [*OPEN, "begin"], {line: "11 RowBusy" for line in ("delete 3 0.3", "update 3 0.3 =a =b")}),
    (("--pages", "1"), ["begin", *["insert 1 =a =b"] * 63], {"insert 1 =a =b": "12 HeapFull"}),
    (("--pages", "1", "--entries", "64"), [*BUILT, "begin", *["insert 2 =cow =4", "step 2"] * 15], {line: "13 IndexFull" for line in ("insert 2 =a =b", "delete 2 0.0")}),
    ((), OPEN, {f"{line} ={'k' * 57}{rest}": "14 KeyTooLong" for line, rest in (
        ("insert 2", " =b"), ("update 2 0.0", " =b"), ("find", ""), ("scan", ""), ("delete-key 2", ""), ("update-key 2 =ant", " =b"))}),
    ((), OPEN, {f"{line} ={'b' * 70}": "15 BodyTooLong" for line in ("insert 2 =a", "update 2 0.0 =a", "update-key 2 =ant =a")}),
    ((), OPEN, {"create": "16 TxnsActive"}),
    ((), [*BUILT, "begin"], {"drop": "16 TxnsActive"}),
    ((), BUILT, {"create": "17 IndexExists"}),
    ((), OPEN, {line: "18 NoIndex" for line in ("drop", "build", "clean", "find =ant", "scan", "delete-key 2 =ant", "update-key 2 =ant =a =b")}),
    ((), [*ROWS, "create", "begin"], {line: "19 NotBuilt" for line in ("find =ant", "scan", "delete-key 2 =ant", "update-key 2 =ant =a =b")}),
    ((), [*BUILT, "begin"], {"delete-key 2 =no": "10 NoSuchRow", "delete-key 2 =bee": "several 0.1 0.2", "update-key 2 =bee =a =b": "several 0.1 0.2"}),
    ((), OPEN, {line: "22 BadScript" for line in (
        "insert 2 =a", "insert 2 a b", "inserted", "delete 2 0", "commit 0", "build 0", "commit! 2 2", "scan =a =b =c", "backup", "crash")}),
]


def played(size, lines, status=0):
    """What a session answers to these lines, on a new store of this size, and the bytes of the file behind it."""
    made("s", *size)
    answers = want(store("run", "s", feed="".join(line + "\n" for line in lines)), status).stdout.decode().splitlines()
    left = pathlib.Path("s").read_bytes()
    os.remove("s")
    return answers, left


def a_refused_command_changes_nothing():
    for size, before, lines in REFUSALS:
        first = [*before, "dump"]
        wanted, left = played(size, [*first, "dump", "flush"])
        at = len(played(size, first)[0])
        for line, why in lines.items():
            answers, bytes_left = played(size, [*first, line, "dump", "flush"], 1 if why.endswith("BadScript") else 0)
            assert answers[at].startswith(f"refused {why}"), f"{line}: {answers[at]}"
            assert answers[:at] + answers[at + 1:] == wanted, f"{line}: {answers[at:]}, and without it {wanted[at:]}"
            assert bytes_left == left, f"{line}: other bytes are in the file"
    pathlib.Path("other").write_bytes(b"another file")
    flushed, left = played((), [*OPEN, "flush", "dump", "flush"])
    at = flushed.index("horizon 5")
    assert played((), [*OPEN, "backup other", "dump", "flush"]) == (flushed[:at] + ["refused backup"] + flushed[at + 1:], left)


def a_refused_verb_changes_nothing():
    made("s")
    want(store("run", "s", feed="".join(line + "\n" for line in ROWS)), 0)
    pathlib.Path("other").write_bytes(b"another file")
    pathlib.Path("rows").write_text("a,b\n1,2\n")
    shown = want(store("dump", "s"), 0).stdout
    names = sorted(os.listdir())
    for words in (["new", "s"], ["new", "other"], ["backup", "s", "other"], ["backup", "other", "n"], ["migrate", "s", "n"], ["migrate", "s", "other", "--blocks"],
                  ["salvage", "s", "other"], ["scan", "s"], ["export", "s", "--order", "key"], ["load", "s", "rows"], ["load", "s", "none"], ["run", "other"]):
        kept = {name: pathlib.Path(name).read_bytes() for name in names}
        want(store(*words), 1)
        assert sorted(os.listdir()) == names, f"{words}: {os.listdir()}"
        for name in names:
            assert pathlib.Path(name).read_bytes() == kept[name], f"{words}: other bytes are in {name}"
        assert want(store("dump", "s"), 0).stdout == shown, words


# ---- columns

def columns_are_told_and_wanted():
    made("s")
    taken = "the column `key` is taken as the key, `body` as the body"
    want(store("load", "s", "-", feed="body,x,key\n1,2,ant\n"), 0, "loaded 1\nrefused 0\n", taken)
    for header, fault in (("a,b,key,d", "no column with the body's name"), ("body,b", "no column with the key's name"), ("ant,1", "--no-header")):
        want(store("load", "s", "-", feed=f"{header}\n1,2,3,4\n"), 1, "", fault)
    want(store("load", "s", "-", "--no-header", feed="bee,2\ncow,3\n"), 0, "loaded 2\nrefused 0\n", "the first column is taken")
    want(store("load", "s", "-", "--key", "a", "--body", "b", feed="b,a\n4,dog\n"), 0, "loaded 1\nrefused 0\n", "the column `a` is taken as the key, `b` as the body")
    want(store("export", "s"), 0, "key,body\nant,1\nbee,2\ncow,3\ndog,4\n")
    for words in (("--key", "a"), ("--body", "a")):
        want(store("load", "s", "-", "--no-header", *words), 2)


# ---- what can be salvaged

def a_cut_file_is_salvaged():
    whole = full_store()
    for kind in ((), ("--blocks",)):
        pathlib.Path("cut").write_bytes(whole[:len(whole) - 700])
        done = want(store("salvage", "cut", "saved", *kind), 0)
        assert b"unread sector" in done.stdout
        want(store("export", "saved"), 0, "key,body\nk1,b\nk2,b\nk1,b\nk2,b\n")
        os.remove("saved")
    want(store("check", "cut"), 1, "", "is no number of sectors")


def a_size_stands_in_for_the_first_sector():
    whole = full_store()
    harmed = bytearray(whole)
    harmed[:24] = b"?" * 24
    pathlib.Path("sb").write_bytes(harmed)
    want(store("salvage", "sb", "saved"), 1, "", "")
    for size in (("--rows", "50"), ("--pages", "1"), ("--pages", "1", "--entries", "252", "--slots", "16")):
        want(store("salvage", "sb", "saved", *size), 0)
        want(store("export", "saved"), 0, "key,body\nk1,b\nk2,b\nk1,b\nk2,b\n")
        want(store("check", "saved"), 0, "sound\n")
        os.remove("saved")


CASES = [
    a_wait_opens_the_file_that_has_the_name_then, a_copy_is_never_of_another_file, no_bit_of_the_geometry_is_silent,
    a_longer_file_is_refused_and_salvaged, a_draft_that_is_left_gives_way, a_store_beside_a_making_stays,
    a_killed_making_gives_way, one_of_many_makings_has_the_name,
    no_refused_allocation_leaves_a_draft, a_line_without_end_takes_little_room,
    a_script_is_read_no_further_than_it_goes, a_long_line_is_answered_as_a_short_one,
    a_record_that_is_too_long_ends_the_load, want_of_memory_is_told_as_that, a_file_that_is_made_is_told,
    a_moved_index_that_does_not_fit_is_told, other_files_are_not_drawn_over, a_file_of_blocks_is_told_to_the_threads,
    what_is_skipped_ends_the_input, an_interrupt_loses_no_commit, a_refused_command_changes_nothing, a_refused_verb_changes_nothing,
    columns_are_told_and_wanted, a_cut_file_is_salvaged, a_size_stands_in_for_the_first_sector,
]


def play(case):
    """Whether a case came as it is to."""
    before = os.getcwd()
    with tempfile.TemporaryDirectory() as folder:
        os.chdir(folder)
        try:
            case()
            return True
        except Passed:
            print(f"{case.__name__}: passed over")
            return True
        except Exception as why:  # a case that ends otherwise has failed
            print(f"{case.__name__}: {type(why).__name__} {why}")
            return False
        finally:
            os.chdir(before)


def main():
    if len(sys.argv) < 2:
        sys.exit(__doc__)
    wanted = sys.argv[2:]
    cases = [case for case in CASES if not wanted or case.__name__ in wanted]
    passed = sum(play(case) for case in cases)
    print(f"{passed} passed, {len(cases) - passed} failed")
    sys.exit(1 if passed < len(cases) else 0)


main()
