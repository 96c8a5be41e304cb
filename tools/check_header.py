#!/usr/bin/env python3
"""Looks whether a header declares what its library has. Usage: tools/check_header.py [--index], anywhere in the repository.

Of nsf.h the numbers of events and replies are those of kind.rt, and its refusals below 100 those of `number_of`, each with a text; its
limits are the constants of the sources. Of nsf_index.h (--index) each number is that of a constant of the sources, and each refusal has a
text. The structs have the fields of the library's, and the functions the parameters of the exports, in order and by type. It ends with
status 1 where something differs.
"""
import pathlib, re, sys

CRATES = pathlib.Path(__file__).resolve().parent.parent / "crates"
TYPES = {"uint32_t": "u32", "uint64_t": "u64", "uint16_t": "u16", "uint8_t": "u8", "int32_t": "i32", "bool": "bool",
         "void": "None", "size_t": "usize", "void *": "*mut u8"}
# Of each header: its crate, the start of its names, the structs with the file that has each, the names of parameters that are others in
# the header, and the files that have exports.
NSF = {
    "header": "nsf.h", "crate": "nsf_c", "start": "NSF_",
    "structs": {"nsf_event": ("asked", "Asked"), "nsf_place": ("spot", "Spot"), "nsf_reply": ("told", "Told"),
                "nsf_status": ("told", "Stat"), "nsf_handle": ("handle", "Handle"), "nsf_bounds": ("bounds", "Bounds")},
    "names": {"asked": "event", "told": "reply", "stat": "status", "spots": "places", "room": "sectors"},
    "files": ("opening", "saving", "scanning", "serving_calls"),
}
INDEX = {
    "header": "nsf_index.h", "crate": "nsf_index_c", "start": "NSF_INDEX_",
    "structs": {"nsf_index": ("handle", "Handle"), "nsf_index_pair": ("pair", "PairOfC"), "nsf_index_cursor": ("pair", "Cursor"),
                "nsf_index_change": ("pair", "ChangeOfC"), "nsf_index_status": ("reading", "Stat")},
    "names": {"handle": "index", "stat": "status"},
    "files": ("opening", "changing", "building", "cleaning", "reading", "recording"),
}
IT = INDEX if "--index" in sys.argv[1:] else NSF
FIRST_INLINE = 100  # the least number of a refusal that inline functions alone answer
LIMITS = {"NSF_KEY_MAX": "record_values/src/key.rt", "NSF_BODY_MAX": "record_values/src/key.rt", "NSF_SLOTS_PER_PAGE": "record_values/src/rid.rt"}


def text(path):
    return (CRATES / path).read_text()


def numbers(header, word):
    """The numbers of the header's list that has this word, by their names without NSF_."""
    block = next(b for b in re.findall(r"enum \{([^}]*)\}", header) if f"{word} " in b)
    return {name: int(number) for name, number in re.findall(r"NSF_(\w+)\s*=\s*(\d+)", block)}


def snake(name):
    return re.sub(r"(?<!^)([A-Z])", r"_\1", name).upper()


def index_number_faults(header):
    sources = "".join(path.read_text() for path in sorted((CRATES / "nsf_index_c/src").glob("*.rt")))
    wanted = {name: int(number) for name, number in re.findall(r"const (\w+): u\w+ = (\d+);", sources)}
    wanted["RECORD_ROOM"] = wanted.pop("FRAME_MAX")
    spec = dict(re.findall(r"^number_of \(?(\w+)[^=]*= (\d+)", text("record_values/specs/Refusals.antt"), flags=re.M))
    for name, error in {"NO_MEMORY": "NoMemory", "BAD_SIZE": "BadGeometry", "FULL": "IndexFull"}.items():
        wanted[name] = int(spec[error])
    for name, constant, path in (("KEY_MAX", "KEY_MAX", "record_values/src/key.rt"), ("SLOTS", "SLOTS_PER_PAGE", "record_values/src/rid.rt"),
                                 ("RECORD_MAX", "NOTE_MAX", "online_notes/src/writing.rt"),
                                 ("ENTRIES_MIN", "ENTRIES_MIN", "record_values/src/geometry.rt"),
                                 ("ENTRIES_MAX", "LARGE_ENTRIES_MAX", "record_values/src/geometry.rt")):
        terms = re.search(rf"const {constant}: \w+ = ([^;]+);", text(path))[1].split(" + ")
        wanted[name] = sum(wanted[term] if term in wanted else int(term.replace("_", "")) for term in terms)
    found = {name: int(number) for name, number in re.findall(r"\bNSF_INDEX_(\w+) = (\d+)", header)}
    if found != wanted:
        yield f"numbers differ: {set(found.items()) ^ set(wanted.items())}"
    texts = set(re.findall(r"case NSF_INDEX_(\w+): return", header))
    refusals = set(re.search(r"enum \{([^}]*NSF_INDEX_OK [^}]*)\}", header)[1].split()) & {f"NSF_INDEX_{name}" for name in found}
    if {f"NSF_INDEX_{name}" for name in texts} != refusals:
        yield f"refusals and texts differ: {texts}, {refusals}"


def nsf_number_faults(header):
    kinds = re.findall(r"pub const (\w+): u32 = (\d+);", text("nsf_c/src/kind.rt"))
    at = [name for name, _ in kinds].index("NO_SUCH_EVENT")
    lists = [("NSF_BEGIN", kinds[:at]), ("NSF_REFUSED", kinds[at + 1:])]
    for word, wanted in lists:
        if numbers(header, word) != {name: int(number) for name, number in wanted}:
            yield f"the numbers from {word} on differ"
    refusals = numbers(header, "NSF_OK")
    spec = re.findall(r"^number_of \(?(\w+)[^=]*= (\d+)", text("record_values/specs/Refusals.antt"), flags=re.M)
    wanted = {snake(name): int(number) for name, number in spec if name != "BadScript"}
    wanted.update({"OK": 0, "NO_SUCH_EVENT": int(kinds[at][1])})
    # those of the inline functions alone
    inline = {name: number for name, number in refusals.items() if number >= FIRST_INLINE}
    if len(set(inline.values())) != len(inline) or max(wanted.values()) >= FIRST_INLINE:
        yield f"numbers of inline functions are no others: {inline}"
    wanted |= inline
    if refusals != wanted:
        yield f"refusals differ: {set(refusals.items()) ^ set(wanted.items())}"
    texts = set(re.findall(r"case NSF_(\w+): return", header))
    if texts != set(refusals):
        yield f"refusals and texts differ: {texts ^ set(refusals)}"
    for name, path in LIMITS.items():
        found = re.search(rf"const {name[4:]}: \w+ = (\d+)", text(path))[1]
        if not re.search(rf"\b{name} = {found}\b", header):
            yield f"{name} is not {found}"
    size = re.search(r"SECTOR_SIZE: usize = (\d+)", "".join(p.read_text() for p in CRATES.glob("sector_device/src/*.rt")))[1]
    if f"NSF_SECTOR = {size} " not in header:
        yield f"NSF_SECTOR is not {size}"


def c_type(declared):
    """A C type as Rust has it, of a field or of a parameter with its name."""
    words = re.sub(r"\s+", " ", declared.strip())
    parts = re.fullmatch(r"(const )?(\w+) (\*?)\(?\*?(\w+)\)?(\[\w+\])?", words)
    const, base, star, name, room = parts.groups()
    kind = IT["structs"][base][1] if base in IT["structs"] else TYPES.get(f"{base} *" if star and base == "void" else base)
    if room:
        kind = f"[{kind};{room[1:-1].removeprefix(IT['start'])}]"
    return name, kind, bool(const), bool(star) or "(*" in words


def struct_faults(header):
    for name, (file, struct) in IT["structs"].items():
        body = re.search(rf"typedef struct {name} \{{(.*?)\}} {name};", header, flags=re.S)[1]
        there = [c_type(field)[:2] for field in body.split(";") if field.strip()]
        source = re.sub(r"//[^\n]*", "", text(f"{IT['crate']}/src/{file}.rt"))
        body = re.search(rf"#\[repr\(C\)\](?:\s*#\[[^\]]*\])*\s*pub struct {struct} \{{(.*?)\n\}}", source, flags=re.S)[1]
        body = re.sub(r"\s*(?:pub )?ghost[^\n]*", "", body)
        fields = re.findall(r"(\w+): ([^,\n]+),", body)
        wanted = [(field, re.sub(r"\s", "", kind).replace("*mutu8", "*mut u8").replace("Pointer", "*mut u8")) for field, kind in fields]
        if there != wanted:
            yield f"{name}: {there}, but {struct}: {wanted}"


def parameters(listed):
    """The export's parameters as C has them: a slice is a pointer and a length."""
    for parameter in filter(None, re.split(r",\s*(?![^\[]*\])", listed.strip().rstrip(","))):
        name, kind = parameter.strip().split(": ", 1)
        if kind == "Global":
            continue
        name = IT["names"].get(name, name)
        mutable = kind.startswith("&mut ")
        inner = kind.removeprefix("&mut ").removeprefix("&")
        slice_of = re.fullmatch(r"\[(.*)\]", inner) if kind.startswith("&") else None
        if slice_of and ";" not in re.sub(r"\[[^\]]*\]", "", slice_of[1]):
            yield f"{name}[]", slice_of[1].replace(" ", "").replace("SECTOR_SIZE", "SECTOR"), mutable
        else:
            yield name, inner, mutable


def declared(listed):
    """The header's parameters in the same form: a pointer before a length is a slice."""
    found = [c_type(p) for p in listed.split(",") if p != "void"]
    at = 0
    while at < len(found):
        name, kind, const, pointer = found[at]
        if at + 1 < len(found) and pointer and found[at + 1][1] == "usize" and not found[at + 1][3]:
            yield f"{name}[]", kind, not const
            at += 2
        else:
            yield name, kind, pointer and not const
            at += 1


def export_faults(header):
    source = "".join(re.sub(r"//[^\n]*", "", text(f"{IT['crate']}/src/{file}.rt")) for file in IT["files"])
    exports = re.findall(r'pub extern "C" fn (\w+)\((.*?)\)(?: -> (\w+))?\s*(?:requires|ensures|\{)', source, flags=re.S)
    for name, listed, result in exports:
        there = re.search(rf"^(\w+) {name}\((.*?)\);", header, flags=re.S | re.M)
        if not there:
            yield f"no {name} in the header"
        elif TYPES[there[1]] != (result or "None") or list(declared(there[2])) != list(parameters(listed)):
            yield f"{name}: {list(declared(there[2]))}, but the export: {list(parameters(listed))}"
    names = {name for name, _, _ in exports}
    for name in re.findall(r"^\w+ (nsf_\w+)\([^;{]*\);", header, flags=re.M):
        if name not in names:
            yield f"no export {name}"


def main():
    header = text(f"{IT['crate']}/include/{IT['header']}")
    code = re.sub(r"/\*.*?\*/", "", header, flags=re.S)
    number_faults = index_number_faults if IT is INDEX else nsf_number_faults
    faults = [*number_faults(code), *struct_faults(code), *export_faults(code)]
    for fault in faults:
        print(fault)
    print(f"{IT['header']}: {len(faults)} faults")
    sys.exit(1 if faults else 0)


main()
