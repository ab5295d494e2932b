#!/usr/bin/env python3
"""Checks that the names of codes are the Rust's: in definitions, in code and in what inspect shows.

usage: names.py [--program PROGRAM] [--selftest] [SOURCES]

Proofs, and the comparison with the Rust, go from byte to code to byte. Neither notices two names exchanged in a definition and its code together.
This compares names and bytes with the original Rust in SOURCES (by default ../shared/docs/src beside the repository). Of each of eight enums:
the definition that the contracts of from_byte and as_byte name, with its answer to other bytes; its list of codes and the enum, both in the
Rust's order; every arm of from_byte; the enum's numbers, which as_byte gives; and the names that PROGRAM (by default crates/inspect/out/inspect)
shows. Of each kind: its CODE, its row of kinds.txt, and its place in the lists of osdp.h and README.md. Prints a line for each difference and exits
with 1 if there is any. To find nothing in a place is a difference.

--selftest exchanges two names or numbers in copies of the files, or in what PROGRAM says, and exits with 1 if one exchange is not noticed.
"""
import argparse
import functools
import re
import subprocess
import sys
import tempfile
from pathlib import Path

top = Path(__file__).resolve().parent.parent
SPECS, CODE, KINDS = "crates/*/specs/**/*.antt", "crates/*/src/**/*.rt", "tools/kinds.txt"
HEADER, README = "include/osdp.h", "README.md"
OTHER = "other bytes"
# an enum, its file in the Rust, a line for inspect with a byte to fill in, and what inspect says before the number and the name;
# None if they are in the title
ENUMS = [
    ("CommandCode", "command/mod.rs", "command {:02X}", None),
    ("ReplyCode", "reply/mod.rs", "reply {:02X}", None),
    ("LedColor", "command/led.rs", "command 69 0000000000{0:02X}{0:02X}0000000000{0:02X}{0:02X}", "_color"),
    ("OutputControlCode", "command/output.rs", "command 68 00{:02X}0000", r"\bcode"),
    ("TextCommand", "command/text.rs", "command 6B 00{:02X}00000000", r"\bcommand"),
    ("BioType", "command/biometric.rs", "command 73 00{:02X}0100", "bio_type"),
    ("BioFormat", "command/biometric.rs", "reply 57 0001{:02X}000000", "bio_format"),
    ("NakErrorCode", "reply/nak.rs", "reply 41 {:02X}", r"\berror"),
]
# the kinds whose type has another name than their code
KIND_OF = {"LedRecord": "LED", "OutputRecord": "OUT"}


def source(path):
    """A file without its comments and attributes."""
    return re.sub(r"--.*" if path.suffix == ".antt" else r"//.*|#\[.*?\]", "", path.read_text(encoding="utf-8"))


def block(text, opening):
    """From the line that begins with the opening to the first closing brace of the same indentation."""
    found = re.search(rf"^( *){opening}.*?^\1\}}", text, re.M | re.S)
    return found[0] if found else ""


def function(text, enum, name):
    return block(block(text, rf"impl {enum} \{{"), rf"(?:pub )?(?:const )?fn {name}\(")


def variants(text, enum):
    return [v.strip() for v in block(text, rf"pub enum {enum} \{{").partition("{")[2].rstrip("}").split(",") if v.strip()]


def plain(text, enum):
    """A byte as 0x60, a variant's name, refused, or other bytes; anything else is put in quotes, and so differs."""
    text = " ".join(text.split()).rstrip(",")
    if re.fullmatch(r"0x[0-9A-Fa-f]+|\d+", text):
        return f"0x{int(text, 16 if 'x' in text else 10):02X}"
    if m := re.fullmatch(rf"(?:{enum}|Self)::(\w+)|Ok\( ?(?:{enum}|Self)::(\w+),? ?\)", text):
        return m[1] or m[2]
    if re.match(r"(?:(?:\{ )?return )?Err\(", text):
        return "refused"
    return OTHER if re.fullmatch(r"_|[a-z]\w*", text) else f"'{text}'"


def arms(text, enum, name):
    """The two sides of each arrow of a function."""
    found = re.split(r"^\s*(\S.*?) => ", block(function(text, enum, name), r"(?:Ok\()?match ")[:-1], flags=re.M)[1:]
    return [(plain(left, enum), plain(right, enum)) for left, right in zip(found[::2], found[1::2])]


def numbered(text, enum):
    """Name and byte of each variant, if as_byte gives the variant's number."""
    found = [v.partition(" = ") for v in variants(text, enum)]
    by_number = re.search(r"\{\s*self as u8\s*\}", function(text, enum, "as_byte"))
    return [(name, plain(number, enum)) for name, _, number in found] if by_number else []


def original(path, enum):
    """Name and byte of each variant of the Rust, and what its from_byte answers to other bytes."""
    text = source(path)
    names = {byte: name for name, byte in numbered(text, enum)}
    reads = dict(arms(text, enum, "from_byte"))
    other = reads.pop(OTHER, None)
    same = names and len(names) == len(variants(text, enum)) and other and dict.fromkeys(names, other) | reads == names
    if not same:
        sys.exit(f"{path}: no {enum}, or its from_byte and as_byte do not go by its numbers")
    return [(name, byte) for byte, name in names.items()], other


def paths(item, before=""):
    """Each path of a use line of a definitions file, with its `as NAME` if it has one: `A.b`, or `A.{b, C.{d, e as f}}`."""
    item = " ".join(item.split())
    if found := re.fullmatch(r"([^{}]*\.)\{(.*)\}", item):
        for part in re.findall(r"(?:[^,{}]|\{(?:[^{}]|\{[^{}]*\})*\})+", found[2]):
            yield from paths(part, before + found[1])
    elif item:
        yield before + item


def definition(crate, text, enum):
    """The table with its answer to other bytes, and the list of codes; the contracts of from_byte and as_byte name the definition."""
    reader, table = (re.search(rf"≡ (\w+) {of}\s*\}}", function(text, enum, name)) for name, of in (("from_byte", "b"), ("as_byte", "self")))
    for spec in map(source, sorted(crate.glob("specs/**/*.antt"))) if reader and table else []:
        named = re.search(rf"^{reader[1]} b = named {table[1]} (?:Ok \(Err .*\)|\(λ c\. c\) (\w+)) (\w+) b$", spec, re.M)
        if named:
            imported = [path for item in re.findall(r"^use (\S[^\n]*(?:\n[ \t}][^\n]*)*)", spec, re.M) for path in paths(item)]
            variants_of = (path.partition(f".declared.{enum}.TheVariants.")[2].split() for path in imported)
            variant = {name[-1]: name[0] for name in variants_of if name}
            name = lambda word: variant.get(word.strip(), f"'{word.strip()}'")
            clauses = [(name(word), plain(byte, enum)) for word, byte in re.findall(rf"^{table[1]} (.+?) = (.+)$", spec, re.M)]
            codes = re.findall(rf"^{named[2]} =(.*?)∷\s*\[\]", spec, re.M | re.S)
            return clauses + [(OTHER, name(named[1]) if named[1] else "refused")], [name(word) for code in codes for word in code.split("∷")]
    return [], []


def shown(line, label, names, inspect):
    """What inspect has to show and what it shows: in titles for every byte, in a field for each byte of the table."""
    numbers = range(256) if label is None else [int(byte, 16) for _, byte in names]
    said = inspect("".join(line.format(n) + "\n" for n in numbers))
    if label is None:
        capitals = {byte: name.upper() for name, byte in names}
        titles = re.findall(rf"^line \d+: {line.split()[0]} ([0-9A-F]{{2}})(?: (.+))?, length 0$", said, re.M)
        return [(f"0x{n:02X}", capitals.get(f"0x{n:02X}", "no name")) for n in numbers], [(f"0x{c}", name or "no name") for c, name in titles]
    answers = zip(numbers, re.split(r"^line \d+: ", said, flags=re.M)[1:])
    found = [(f"0x{n:02X}", {name or "no name" for name in re.findall(rf"{label} {n}\b ?(\w*)", answer)}) for n, answer in answers]
    return [(byte, name) for name, byte in names], [(byte, " and ".join(sorted(each)) or "nothing") for byte, each in found]


def places(names):
    return [(name, f"place {number}") for number, name in enumerate(names, 1)]


def differences(enum, place, wanted, found):
    """Enum, name or byte, place, what the Rust has and what is there, for each difference; a name that is there twice is one."""
    rust, there = dict(wanted), {}
    for key, value in found:
        there[key] = f"{there[key]} and {value}" if key in there else value
    if not there:
        return [(enum, "(all)", place, f"{len(rust)} names", "nothing")]
    return [(enum, key, place, rust.get(key, "nothing"), there.get(key, "nothing")) for key in rust | there if rust.get(key) != there.get(key)]


def of_enum(root, code, enum, names, other):
    homes = [path for path, text in code.items() if re.search(rf"^pub enum {enum} \{{", text, re.M)]
    if len(homes) != 1:
        return [(enum, "(all)", "enum", "one enum", f"{len(homes)}")]
    text, crate = code[homes[0]], root / "crates" / homes[0].relative_to(root).parts[1]
    table, listed = definition(crate, text, enum)
    order = places(name for name, _ in names)
    compared = [
        ("definition", names + [(OTHER, other)], table),
        ("list", order, places(listed)),
        ("enum", order, places(v.partition(" = ")[0] for v in variants(text, enum))),
        ("from_byte", [(byte, name) for name, byte in names] + [(OTHER, other)], arms(text, enum, "from_byte")),
        ("as_byte", names, numbered(text, enum)),
    ]
    return [d for place, wanted, found in compared for d in differences(enum, place, wanted, found)]


def listed(path):
    """Name, side and code of the kinds in the paragraph of a text that begins `commands LED 0x69` and goes on with the replies."""
    found = re.search(r"\bcommands\s+[A-Z]+ 0x.*?\n[ *]*\n", path.read_text(encoding="utf-8"), re.S)
    parts = re.split(r"\breplies\b", found[0]) if found else []
    return [(name, f"{side} 0x{byte}") for side, part in zip(("command", "reply"), parts) for name, byte in re.findall(r"\b([A-Z]+) 0x(\w+)", part)]


def of_kinds(root, code, codes):
    """The differences of the kinds that have a CODE or a row in kinds.txt, and how many kinds there are."""
    types = [found for text in code.values() for found in re.findall(r"^impl (?:\w+ for )?(\w+) \{(.*?)^\}", text, re.M | re.S)]
    constants = [(KIND_OF.get(name, name).upper(), plain(byte, name)) for name, body in types for byte in re.findall(r"const CODE: u8 = (.*);", body)]
    lines = [line.split() for line in (root / KINDS).read_text(encoding="utf-8").splitlines() if line and line[0] != "#"]
    rows = [(name, f"{side} 0x{byte}") for name, side, byte, *_ in lines]
    kinds = {name: codes[name] for name, _ in constants + rows if name in codes}
    sideless = [(name, code.split()[1]) for name, code in kinds.items()]
    lists = [("kinds.txt", rows), ("osdp.h", listed(root / HEADER)), ("README.md", listed(root / README))]
    found = [d for place, there in lists for d in differences("kind", place, kinds, there)]
    return differences("kind", "CODE", sideless, constants) + found, len(kinds)


def compare(root, rust, inspect):
    """The differences, and how many names and kinds there are; inspect is a function from input to output."""
    code = {path: source(path) for path in sorted(root.glob(CODE))}
    found, codes, count = [], {}, 0
    for enum, file, line, label in ENUMS:
        names, other = original(rust / file, enum)
        found += of_enum(root, code, enum, names, other) + differences(enum, "inspect", *shown(line, label, names, inspect))
        codes |= {name.upper(): f"{line.split()[0]} {byte}" for name, byte in names if label is None}
        count += len(names)
    more, kinds = of_kinds(root, code, codes)
    return found + more, count, kinds


def as_written(root, enum):
    """The number of each variant, as the code has it."""
    return dict(v.split(" = ") for path in root.glob(CODE) for v in variants(source(path), enum))


def trials(root, rust):
    """An enum, the places where differences have to be found, and for each place what is edited: the files, the start of the lines and the words to
    exchange. An enum's place is exchanged with its number."""
    yield "all", {}
    for enum, file, _, label in ENUMS:
        a, b = (name for name, _ in original(rust / file, enum)[0][1:3])
        written, line = as_written(root, enum), rf"    (?:{a}|{b}) = "
        as_byte = (CODE, line, written[a], written[b])
        edits = {
            "definition": [(SPECS, rf"\w+ (?:{a}|{b}) = ", a, b)],
            "list": [(SPECS, r"(?!use ).*∷ ", a, b)],
            "enum": [(CODE, line, a, b), as_byte],
            "from_byte": [(CODE, rf" +\w+ => .*(?:{enum}|Self)::(?:{a}|{b})\b", a, b)],
            "as_byte": [as_byte],
            "inspect": [(None, "", a, b) if label else (None, "", a.upper(), b.upper())],
        }
        for exchanged in [[place] for place in edits] + [["definition", "from_byte", "as_byte"], list(edits)]:
            yield enum, {place: edits[place] for place in exchanged}
    yield "kind", {"CODE": [(CODE, " +(?:pub )?const CODE: u8 = ", "0x73", "0x74")]}
    yield "kind", {"kinds.txt": [(KINDS, "(?:LED|OUT) ", "LED", "OUT")]}
    yield "kind", {"osdp.h": [(HEADER, r" \* ", "LED", "OUT")]}
    yield "kind", {"README.md": [(README, " +replies", "RAW", "FMT")]}


def edited(text, files, edits):
    """The text after the edits of these files."""
    for _, begins, a, b in (edit for of_place in edits for edit in of_place if edit[0] == files):
        exchanged = re.compile(rf"\b(?:{a}|{b})\b")
        text = "".join(exchanged.sub(lambda m: b if m[0] == a else a, line) if re.match(begins, line) else line for line in text.splitlines(True))
    return text


def selftest(root, rust, inspect):
    """How many trials find differences in other places than expected; later trials leave out the differences of the untouched copy."""
    before, wrong, count = set(), 0, 0
    for enum, edits in trials(root, rust):
        with tempfile.TemporaryDirectory() as folder:
            for files, path in ((files, path) for files in (SPECS, CODE, KINDS, HEADER, README) for path in root.glob(files)):
                copy = Path(folder) / path.relative_to(root)
                copy.parent.mkdir(parents=True, exist_ok=True)
                copy.write_text(edited(path.read_text(encoding="utf-8"), files, edits.values()), encoding="utf-8")
            found = set(compare(Path(folder), rust, lambda text: edited(inspect(text), None, edits.values()))[0])
        new = found - before
        right = {(d[0], d[2]) for d in new} == {(enum, place) for place in edits}
        print(f"{enum}, exchanged in {', '.join(edits) or 'no place'}: {len(new)} differences{'' if right else ', WRONG'}")
        before, wrong, count = before if edits else found, wrong + (not right), count + 1
    print(f"{count} trials, {wrong} wrong")
    return wrong


def main():
    parser = argparse.ArgumentParser(usage=__doc__.split("usage: ")[1])
    parser.add_argument("--program", default=top / "crates/inspect/out/inspect", type=Path, help=argparse.SUPPRESS)
    parser.add_argument("--selftest", action="store_true", help=argparse.SUPPRESS)
    parser.add_argument("sources", nargs="?", help=argparse.SUPPRESS)
    options = parser.parse_args()
    given = Path(options.sources or top / "../shared/docs/src")
    rust = given if (given / "command").is_dir() else given / "src"
    if not (rust / "command/led.rs").exists():
        sys.exit(f"the original Rust is not in {given}: fetch the repository Quantumlyy/osdp-rs at commit 8e2b7c7df1, put its files there, or give their folder")
    if not options.program.is_file():
        sys.exit(f"no program {options.program}: make run builds it")

    @functools.cache
    def inspect(text):
        ran = subprocess.run([options.program.resolve()], input=text.encode(), capture_output=True)
        if ran.returncode or ran.stderr:
            sys.exit(f"{options.program} ended with {ran.returncode} and said {ran.stderr}")
        return ran.stdout.decode("ascii")

    if options.selftest:
        sys.exit(1 if selftest(top, rust, inspect) else 0)
    found, names, kinds = compare(top, rust, inspect)
    for enum, name, place, had, there in found:
        print(f"{enum} {name}, {place}: the Rust has {had}, there is {there}")
    if not found:
        print(f"{len(ENUMS)} enums, {names} names, {kinds} kinds: definitions, lists, enums, from_byte, as_byte, inspect, CODE, kinds.txt, osdp.h, "
              "README.md: the Rust's")
    sys.exit(1 if found else 0)


if __name__ == "__main__":
    main()
