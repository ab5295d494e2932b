#!/usr/bin/env python3
"""Holds the places that say what a row of the refusal table means to rows.txt: rows.py [--selftest]

The places: names and numbers of `enum Row`; the sentences that inspect shows; names and numbers of `enum osdp_refusal`, and what osdp_row_text says
to -1 and to every number of a byte, both by a C program that gcc compiles against the header; the table of README.md. Prints a line for each
difference and exits with 1 if there is any. To find nothing in a place is a difference.

--selftest changes one thing at a time in copies of the files, and exits with 1 if that is not noticed where it has to be, or is noticed elsewhere.
"""
import re
import subprocess
import sys
import tempfile
from pathlib import Path

sys.dont_write_bytecode = True
from names import block, differences, source, variants

top = Path(__file__).resolve().parent.parent
TABLE, ROWS, SENTENCES = "tools/rows.txt", "crates/payload_util/src/lib.rt", "crates/inspect_form/src/sentences.rt"
HEADER, README = "include/osdp.h", "README.md"
NO_ROW = "no row of the refusal table"
ASKED = range(-1, 256)
PLACES = ["enum Row", "sentences.rt", "enum osdp_refusal", "osdp_row_text", "README.md"]
PROGRAM = """#include <stdio.h>
#include "osdp.h"
int main(void)
{
    int row;
%s    for (row = %d; row <= %d; row++)
        printf("%%d %%s\\n", row, osdp_row_text(row));
    return 0;
}
"""


def table(root):
    """Number, name in payload_util, name in osdp.h and sentence of each row."""
    rows = [line.split(" ", 3) for line in (root / TABLE).read_text(encoding="utf-8").splitlines() if line and line[0] != "#"]
    numbers = [int(row[0]) for row in rows if len(row) == 4 and row[0].isdigit()]
    if not rows or len(numbers) != len(rows) or numbers != sorted(set(numbers)):
        sys.exit(f"{TABLE}: lines are a number, two names and a sentence, each number is above the one before")
    return rows


def sentences(root):
    """Name and sentence of each arm."""
    return re.findall(r'Row::(\w+) =>\s*(?:\{\s*)?"(.*?)"', block(source(root / SENTENCES), r"pub fn sentence\("))


def header(root):
    """Names of enum osdp_refusal with their numbers, and numbers with the text that osdp_row_text has for them."""
    enum = re.search(r"^enum osdp_refusal \{(.*?)^\};", (root / HEADER).read_text(encoding="utf-8"), re.M | re.S)
    names = re.findall(r"\bOSDP_\w+", enum[1]) if enum else []
    shown = "".join(f'    printf("{name} %d\\n", {name});\n' for name in names)
    with tempfile.TemporaryDirectory() as folder:
        gcc = ["gcc", "-std=c99", "-I", root / "include", "-o", f"{folder}/rows", "-x", "c", "-"]
        built = subprocess.run(gcc, input=PROGRAM % (shown, ASKED[0], ASKED[-1]), capture_output=True, text=True)
        if built.returncode:
            sys.exit(f"{built.stderr}{HEADER} does not compile")
        lines = subprocess.run([f"{folder}/rows"], capture_output=True, text=True, check=True).stdout.splitlines()
    pairs = [tuple(line.split(" ", 1)) for line in lines]
    return pairs[:len(names)], pairs[len(names):]


def readme(root):
    """Number of each row of the table, and its words with the two numbers in brackets."""
    found = re.search(r"^\| No\. \| When \| First, second \|\n\|[-|]+\|\n((?:\|.*\n)*)", (root / README).read_text(encoding="utf-8"), re.M)
    cells = [[cell.strip() for cell in line.strip("|").split("|")] for line in found[1].splitlines()] if found else []
    return [(number, f"{when} ({both})" if both else when) for number, when, both in cells]


def check(root):
    """Row, place, what rows.txt has and what is there, for each difference."""
    rows = table(root)
    texts = {number: text for number, _, _, text in rows}
    refusals, answers = header(root)
    places = [
        ([(name, number) for number, name, _, _ in rows], [tuple(v.split(" = ")) for v in variants(source(root / ROWS), "Row")]),
        ([(name, text) for _, name, _, text in rows], sentences(root)),
        ([(name, number) for number, _, name, _ in rows if name != "-"], refusals),
        ([(str(n), texts.get(str(n), NO_ROW)) for n in ASKED], answers),
        (list(texts.items()), readme(root)),
    ]
    return [d[1:] for place, (wanted, found) in zip(PLACES, places) for d in differences("row", place, wanted, found)]


ALL, SAID = set(PLACES), {"sentences.rt", "osdp_row_text", "README.md"}
# a file, what stands there, what is put in its place, and the places where that has to be noticed
TRIALS = [
    (TABLE, "", "", set()),
    (TABLE, "tail too long", "tail is too long", SAID),
    (TABLE, "21 WrongCheck OSDP_FRAME_CHECK wrong check of a frame\n", "", ALL),
    (TABLE, "28 PayloadTooLong OSDP_TOO_LONG payload", "29 PayloadTooLong OSDP_TOO_LONG payload", ALL - {"sentences.rt"}),
    (TABLE, "13 TailLength -", "13 TailLength OSDP_TAIL", {"enum osdp_refusal"}),
    (ROWS, "EmptyList = 11", "EmptyList = 19", {"enum Row"}),
    (ROWS, "    WrongCheck = 21,\n", "    WrongCheck = 21,\n    Another = 23,\n", {"enum Row"}),
    (ROWS, "pub enum Row {", "pub enum Rows {", {"enum Row"}),
    (SENTENCES, '"NAK error above 9"', '"NAK error above 8"', {"sentences.rt"}),
    (SENTENCES, "Row::Folded =>", "Row::Fold =>", {"sentences.rt"}),
    (SENTENCES, "pub fn sentence(", "pub fn words(", {"sentences.rt"}),
    (HEADER, "OSDP_FRAME_CHECK = 21,", "OSDP_FRAME_CHECK = 21, OSDP_MORE = 29,", {"enum osdp_refusal"}),
    (HEADER, "OSDP_TOO_LONG = 28", "OSDP_TOO_LONG = 27", {"enum osdp_refusal", "osdp_row_text"}),
    (HEADER, "enum osdp_refusal {", "enum osdp_refused {", {"enum osdp_refusal"}),
    (HEADER, '"tail too long"', '"tail too short"', {"osdp_row_text"}),
    (HEADER, "case 11:", "case 0:", {"osdp_row_text"}),
    (HEADER, NO_ROW, "wrong check of a frame", {"osdp_row_text"}),
    (README, "| above the house limit |", "| above the limit |", {"README.md"}),
    (README, "| asked for, got |", "| got, asked for |", {"README.md"}),
    (README, "| 7 | output code above 6 | |\n", "", {"README.md"}),
    (README, "| No. | When |", "| Number | When |", {"README.md"}),
]


def selftest():
    """How many changes are noticed in other places than they have to be; the differences that there are without a change are left out."""
    wrong, before = 0, set(check(top))
    for file, old, new, places in TRIALS:
        with tempfile.TemporaryDirectory() as folder:
            for name in (TABLE, ROWS, SENTENCES, HEADER, README):
                copy, text = Path(folder) / name, (top / name).read_text(encoding="utf-8")
                copy.parent.mkdir(parents=True, exist_ok=True)
                copy.write_text(text.replace(old, new, 1) if name == file else text, encoding="utf-8")
            found = {place for _, place, _, _ in set(check(Path(folder))) - before}
        if found != places:
            print(f"{file}, {old!r} made {new!r}: noticed in {sorted(found)}, has to be in {sorted(places)}")
            wrong += 1
    print(f"rows: {len(TRIALS)} changes tried, {wrong} not noticed where they have to be")
    return wrong


if sys.argv[1:] == ["--selftest"]:
    sys.exit(1 if selftest() else 0)
if sys.argv[1:]:
    sys.exit(__doc__)
faults = check(top)
for row, place, had, there in faults:
    print(f"{row}, {place}: {TABLE} has {had!r}, there is {there!r}")
if not faults:
    print(f"rows: {len(table(top))} rows, and {len(ASKED)} numbers asked of osdp_row_text: {', '.join(PLACES)} say what {TABLE} says")
sys.exit(1 if faults else 0)
