#!/usr/bin/env python3
"""Looks whether README.md, CHANGELOG.md and docs/*.md agree with the sources, at the width of these, and at what proofs cite of other
crates. Usage: tools/check_docs.py [--run], anywhere.

Each word in backticks that could name an item, a crate or a file stands in the sources. At each place FILE:LINE that a table row
names stands what the row is about, and at one in brackets the item that is named before it. Each block of `rust` stands in the file
that is named last before it, from that line on where one is named: line for line, but for comments, and for what a line `..` stands
for. Each call `nsf_..` of a block of `c` is one of the headers, with as many arguments. Each relative link leads somewhere. A row
with functions and a file names functions of that file. A line of src or specs has at most 120 columns, one of proofs 160, strings
aside. Of another crate's proofs only the lemma files are cited that the head of its lib.rt names, and each of these is. The crate that
a launcher `nsf-..` names, and the text of help in its tests, are there. It ends with status 1 where something is missing or too wide.

With --run it also runs each block of `sh` of README and GUIDE, where `rt` is there: in a copy of the checkout, in which no store is
yet, a page's blocks one after another. Each ends with status 0, and prints the block of `text` that stands right behind it, if one
does. Programs which are built for this, in some minutes, are kept in .kept of the checkout.
"""
import difflib, fnmatch, os, pathlib, re, shutil, subprocess, sys, tempfile

TOP = pathlib.Path(__file__).resolve().parent.parent
UNREAD = {".git", ".kept", "out", "target"}
KINDS = {".rt", ".antt", ".edit", ".h", ".c", ".rs", ".py", ".sh"}
WORD = re.compile(r"[A-Za-z_]\w{2,}")
BYTES = re.compile(r"(?<![\w:]):[0-9a-f]{2,}\b|\b\d\w*")
OUTSIDE = {"libc", "start_io", "synchronous"}  # names of other programs
TEXT = re.compile(r'"(?:[^"\\]|\\.)*"', re.S)
PLACE = re.compile(r"`([\w./-]+\.(?:rt|antt)):(\d+)`")
QUOTED = re.compile(r"`([\w./-]+\.(?:rt|rs))(?::(\d+))?`")
BLOCK = r"((?:(?!```).*\n)*)```$"
CODE = re.compile(r"^```rust\n" + BLOCK, re.M)
SHOWN = re.compile(r"^```sh\n" + BLOCK + r"(?:\n\s*^```text\n" + BLOCK + ")?", re.M)
RUN_PAGES = {"README.md", "GUIDE.md"}
IN_BRACKETS = re.compile(r"`(\w+)`[^`|]*\(`([\w./-]+\.(?:rt|antt)):(\d+)`\)")
C_CODE = re.compile(r"^```c\n" + BLOCK, re.M)
C_CALL = re.compile(r"\b(nsf_\w+)\(([^()]*)\)")
C_DECLARED = re.compile(r"\w[ *](nsf_\w+)\(([^()]*(?:\([^()]*\)[^()]*)*)\)\s*[;{]")


def all_paths():
    """All files and folders, but for what is built. (That may come and go meanwhile.)"""
    for folder, folders, files in os.walk(TOP):
        folders[:] = [name for name in folders if name not in UNREAD]
        for name in folders + files:
            yield pathlib.Path(folder) / name


def sources():
    """The words of all sources, and the paths of all files, with each of their ends."""
    words, ends = set(), set()
    for path in all_paths():
        parts = path.relative_to(TOP).parts
        ends.update("/".join(parts[i:]) for i in range(len(parts)))
        words.update(WORD.findall(" ".join(parts)))
        if path.suffix in KINDS and path.name != "check_docs.py":
            words.update(WORD.findall(path.read_text(errors="replace")))
    words.update(WORD.findall((TOP / "crates.txt").read_text()))
    return words, ends


def lines_of(file):
    path = next((p for p in (TOP / file, TOP / "crates" / file) if p.is_file()), None)
    return path.read_text().splitlines() if path else []


def line_at(file, number):
    lines = lines_of(file)
    return lines[number - 1] if 0 < number <= len(lines) else None


def is_at(shown, lines):
    """Whether these lines begin with those that are shown, but for comments, and for what a line `..` stands for."""
    for number, line in enumerate(shown):
        if line.strip() == "..":
            return any(is_at(shown[number + 1:], lines[start:]) for start in range(len(lines) + 1))
        while lines and line != lines[0] and (not lines[0].strip() or lines[0].strip().startswith("//")):
            lines = lines[1:]
        if not lines or line != lines[0]:
            return False
        lines = lines[1:]
    return True


def misquoted(text):
    """Each block of code that is not that of the file which is named last before it."""
    for block in CODE.finditer(text):
        shown = [line for line in block[1].splitlines() if line.strip()]
        places = QUOTED.findall(text[: block.start()])
        if not places:
            yield f"no file before the block of `{shown[0].strip()}`"
            continue
        file, number = places[-1]
        lines = lines_of(file)
        starts = [int(number) - 1] if number else [at for at, line in enumerate(lines) if line == shown[0]]
        if not any(is_at(shown, lines[start:]) for start in starts):
            yield f"the block of `{shown[0].strip()}` is not what stands in {file}"


def c_faults(text):
    """Each call in a block of C that the headers don't have, or that has more or fewer arguments there."""
    headers = "".join(path.read_text() for path in sorted(TOP.glob("crates/*/include/*.h")))
    declared = {name: parameters.count(",") for name, parameters in C_DECLARED.findall(headers)}
    for block in C_CODE.finditer(text):
        for name, arguments in C_CALL.findall(block[1]):
            if name not in declared:
                yield f"no {name} in the headers"
            elif arguments.count(",") != declared[name]:
                yield f"{name} has {declared[name] + 1} parameters"


def misplaced(prose):
    """Each item that doesn't stand at the place in brackets behind it."""
    for name, file, number in IN_BRACKETS.findall(prose):
        line = line_at(file, int(number))
        if line is None or not re.search(rf"\b{name}\b", line):
            yield f"{file}:{number} has no {name}: {line}"


def faults(page, words, ends):
    text = page.read_text()
    pieces = re.split(r"^```.*$", text, flags=re.M)
    prose = "\n".join(pieces[::2])
    for name in re.findall(r"`([^`\n]+)`", prose):
        file = name.split(":")[0]
        if "/" in file and re.fullmatch(r"[\w./*-]+", file):
            if not any(fnmatch.fnmatch(end, file.strip("./")) for end in ends):
                yield f"no file {file}"
        elif not name.startswith(("rattle-kit", "logic ")):
            for word in WORD.findall(BYTES.sub("", name)):
                if word not in words and word not in OUTSIDE and not word.isupper():
                    yield f"no {word} in the sources, of `{name}`"
    for row in prose.splitlines():
        hop = re.match(r"\| ((?:`\w+`(?:, )?)+) \| `([\w/]+\.rt)` \|", row)
        if hop:
            file = TOP / "crates" / hop[2]
            code = file.read_text() if file.is_file() else ""
            for name in WORD.findall(hop[1]):
                if not re.search(rf"\bfn {name}\b", code):
                    yield f"no function {name} in {hop[2]}"
        subject = re.match(r"\| `(\w+)`", row)
        for file, number in PLACE.findall(row):
            line = line_at(file, int(number))
            if line is None:
                yield f"no line {file}:{number}"
            elif subject and not re.search(rf"\b{subject[1]}\b", line):
                yield f"{file}:{number} has no {subject[1]}: {line.strip()}"
    yield from misplaced(prose)
    yield from misquoted(text)
    yield from c_faults(text)
    for link in re.findall(r"\]\(([^)#]+)\)", prose):
        if "://" not in link and not (page.parent / link).exists():
            yield f"no {link} to link to"


def wide_lines():
    """Each line of a crate that is too wide."""
    for part, most in (("src", 120), ("specs", 120), ("proofs", 160)):
        for path in sorted(TOP.glob(f"crates/*/{part}/**/*")):
            if path.suffix in {".rt", ".antt"}:
                text = TEXT.sub(lambda it: "\n" * it[0].count("\n"), path.read_text())
                for number, line in enumerate(text.split("\n"), 1):
                    if len(line) > most:
                        yield f"{path.relative_to(TOP)}:{number} has {len(line)} columns"


def cited_proofs():
    """Each lemma file that another crate cites and the head of its own doesn't name, or that is named, or open, and not cited."""
    crates = {path.name for path in (TOP / "crates").iterdir()}
    cited, count = {}, 0
    for path in sorted(TOP.glob("crates/*/**/*")):
        crate = path.relative_to(TOP).parts[1]
        if path.suffix in {".rt", ".antt"} and "out" not in path.relative_to(TOP).parts:
            for other, file in re.findall(r"\bRattle\.(\w+)\.proofs\.([A-Z]\w*)", path.read_text()):
                if other != crate and other in crates:
                    count += 1
                    cited.setdefault(other, {}).setdefault(file, crate)
    for crate in sorted(crates):
        head, lib = TOP / "crates" / crate / "src/lib.rt", TOP / "crates" / crate / "proofs/Lib.antt"
        told = " ".join(line[3:] for line in head.read_text().splitlines() if line.startswith("//!")) if head.is_file() else ""
        named = set(re.findall(r"`([A-Z]\w*)`", told.partition("crates above may cite")[2]))
        opened = set(re.findall(r"^pub mod (\w+)", lib.read_text(), re.M)) if lib.is_file() else set()
        for file, by in cited.get(crate, {}).items():
            if file not in named:
                yield f"{by} cites {file} of {crate}'s proofs, which its head doesn't name"
        for file in (named | opened) - set(cited.get(crate, ())):
            yield f"nothing cites {file} of {crate}'s proofs"
    print(f"{count:6} imports of other crates' proofs, of {sum(map(len, cited.values()))} files that their heads name")


def launchers():
    """Each crate that a launcher names and that isn't there, and each whose tests have no text of help: a file, or a row of a table."""
    for path in sorted(TOP.glob("nsf-*")):
        program, tests = re.search(rf"run-program\" {path.name} (\w+) (\w+) ", path.read_text()).groups()
        help_file, table = TOP / f"crates/{tests}/src/help.rt", TOP / f"crates/{tests}/stdin"
        if not (TOP / f"crates/{program}/src/main.rt").is_file():
            yield f"{path.name} needs crates/{program}/src/main.rt, which isn't there"
        if not help_file.is_file() and not (table.is_file() and b"\n= the help\n" in table.read_bytes()):
            yield f"{path.name} needs the text of its help in crates/{tests}"


def shown_runs(page):
    """Each block of commands of a page that fails, or doesn't print the block of text behind it."""
    shown = SHOWN.findall(page.read_text()) if page.name in RUN_PAGES else []
    if not shown:
        return
    with tempfile.TemporaryDirectory() as room:
        copy = pathlib.Path(room) / "checkout"
        shutil.copytree(TOP, copy, symlinks=True, ignore=shutil.ignore_patterns(*UNREAD))
        (TOP / ".kept").mkdir(exist_ok=True)
        (copy / ".kept").symlink_to(TOP / ".kept")
        for commands, text in shown:
            run = subprocess.run(["sh", "-ec", commands], cwd=copy, stdin=subprocess.DEVNULL, stdout=subprocess.PIPE, text=True)
            first = commands.splitlines()[0]
            if run.returncode:
                yield f"the block of `{first}` ends with status {run.returncode}"
            differing = difflib.unified_diff(text.splitlines(), run.stdout.splitlines(), "shown", "printed", n=1, lineterm="")
            difference = "\n       ".join(differing)
            if text and difference:
                yield f"the block of `{first}` prints other lines:\n       {difference}"
    print(f"{len(shown):6} blocks of commands were run")


def main():
    runs = "--run" in sys.argv[1:]
    if runs and not shutil.which("rt"):
        print("no rt is there, so no block of commands is run")
        runs = False
    words, ends = sources()
    pages = [TOP / "README.md", TOP / "CHANGELOG.md", *sorted((TOP / "docs").glob("*.md"))]
    wrong = 0
    for page in pages:
        print(page.relative_to(TOP))
        for fault in (*faults(page, words, ends), *(shown_runs(page) if runs else ())):
            wrong += 1
            print(f"       {fault}")
    for fault in (*wide_lines(), *cited_proofs(), *launchers()):
        wrong += 1
        print(f"       {fault}")
    print(f"{wrong} faults")
    sys.exit(1 if wrong else 0)


main()
