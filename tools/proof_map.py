#!/usr/bin/env python3
"""Checks docs/PROOF-MAP.md, and with --selftest also whether that would notice what is wrong: proof_map.py [--selftest]

Names stand in backquotes, and exist: `led::LedRecord::decode` is a function, `led.led_law` a definition or a theorem, `led!colours_swapped` a
must-fail edit, and whatever has a `/` a file. Other backquoted text, such as a payload, has a space or a digit first.
The last four cells of a row say where something is defined, proved, run and guarded. Each names something of its sort, or begins with "no", what
there is not, a colon and the reason. What something is run by is a list of programs, targets of make and files, then, after a colon, words about
them; there may be more such lists, after a semicolon.
Every must-fail edit and every requirement of docs/REQUIREMENTS.md is in the map; every public call is called somewhere, and is reached by a run
(calls.py says how) or is in the map's table of those that are not. Every requirement that a file of the repository cites exists.
"""
import functools
import re
import sys
from pathlib import Path

sys.dont_write_bytecode = True
import calls

top = Path(__file__).resolve().parent.parent
TEXTS = {".md", ".txt", ".rt", ".antt", ".edit", ".rs", ".py", ".sh", ".h", ".c"}
UNREACHED = ["Call that no run reaches", "Reason"]
crates = {c.name: c for c in sorted((top / "crates").iterdir()) if (c / "src").is_dir()}
edits = {f"{c}!{e.stem}" for c, folder in crates.items() for e in folder.glob("must-fail/*.edit")}


@functools.cache
def functions():
    """crate::Type::name or crate::name of each function."""
    return {f.label() for f in calls.Calls(calls.sources()).functions.values()}


@functools.cache
def definitions(crate):
    """Names that a specs/ or proofs/ file of a crate declares."""
    found = set()
    for folder in ("specs", "proofs"):
        for path in sorted((crates[crate] / folder).rglob("*.antt")):
            for line in path.read_text(encoding="utf-8").splitlines():
                if m := re.match(r"\s*(?:(?:abbrev|unfoldable|pub|data|record) )*([^\s:(){}]+)(?: \(.*\))? :", line):
                    found.add(m.group(1))
    return found


@functools.cache
def runs():
    """Programs, and the targets of make that run something."""
    targets = re.findall(r"^\.PHONY: ([a-z].*)", (top / "Makefile").read_text(encoding="utf-8"), re.M)
    programs = {name for name, folder in crates.items() if (folder / "src/main.rt").exists()}
    return programs | set(" ".join(targets).split()) - {"help", "arguments", "clean"}


@functools.cache
def requirements():
    """The items of docs/REQUIREMENTS.md, in order."""
    return re.findall(r"^- \*\*(R\d+\.\d+)\*\*", (top / "docs/REQUIREMENTS.md").read_text(encoding="utf-8"), re.M)


def cited(text):
    """The requirements that a text cites; `R4.1 to R4.3` cites all three."""
    found = set(re.findall(r"\bR\d+\.\d+\b", text))
    for chapter, low, high in re.findall(r"\bR(\d+)\.(\d+) to R\1\.(\d+)\b", text):
        found |= {f"R{chapter}.{n}" for n in range(int(low), int(high) + 1)}
    return found


def files():
    """The files whose citations are checked; the requirements' own page names some that later requests will add."""
    for pattern in ("*.md", "crates.txt", "docs/**/*.md", "crates/**/*.rt", "crates/**/*.antt", "crates/*/must-fail/*.edit", "crates/*/README.md",
                    "tools/**/*.*", "include/*", "examples/**/*.[ch]"):
        yield from (p for p in sorted(top.glob(pattern)) if p.is_file() and p.name != "REQUIREMENTS.md" and p.suffix in TEXTS)


def names_in(text):
    """Backquoted names; a payload is none."""
    return [token for token in re.findall(r"`([^`]+)`", text) if not re.match(r"\d|.*\s", token)]


def sort(name):
    """What a name is of, and whether that exists."""
    if re.fullmatch(r"\w+!\w+", name):
        return "must-fail edit", name in edits
    if "/" in name:
        return "file", (top / name).exists()
    if m := re.fullmatch(r"(\w+)::(.+)", name):
        return "function", name in functions()
    if m := re.fullmatch(r"(\w+)\.(.+)", name):
        return "definition or theorem", m[1] in crates and m[2] in definitions(m[1])
    return "thing of that sort", False


def bare(text):
    """Names that stand without backquotes."""
    text = re.sub(r"`[^`]*`", "` `", text)
    found = re.findall(r"\b\w+(?:::\w+)+", text) + [name for name in re.findall(r"\b\w+!\w+", text) if name in edits]
    dotted = [(m[1], m[2].rstrip(".,;:")) for m in re.finditer(r"\b(\w+)\.([^\s|()`]+)", text) if m[1] in crates]
    return found + [f"{crate}.{name}" for crate, name in dotted if name in definitions(crate)]


PROVED, GUARDED = {"definition or theorem", "function"}, {"must-fail edit"}
DEFINED = PROVED | {"file"}
CELLS = (("where it is defined", DEFINED), ("what proves it", PROVED), ("what runs it", None), ("what guards it", GUARDED))


def without_run(cell):
    """What a cell says that something is run by and that is no run."""
    listed = [name for part in cell.split("; ") for name in part.partition(": ")[0].split(", ")]
    return [name for name in listed if name not in runs() and not re.fullmatch(r"`[^`\s]+/[^`\s]+`", name)]


def cells_wrong(cells):
    """The four cells of a row that say where something is defined, proved, run and guarded."""
    for cell, (what, sorts) in zip(cells, CELLS):
        if re.match(r"no\b", cell):
            if not re.match(r"no [^:`]+: \S+ \S+", cell):
                yield f"no reason for nothing in the cell that says {what}: {cell}"
        elif sorts is None:
            yield from (f"no program, target of make or file: {name or 'an empty cell'}" for name in without_run(cell))
        elif not sorts & {sort(name)[0] for name in names_in(cell)}:
            yield f"no name of a {' or '.join(sorted(sorts))} in the cell that says {what}: {cell or 'it is empty'}"


def rows(text):
    """Line number, head of the table, and cells of each row."""
    head = None
    lines = text.splitlines()
    for number, line in enumerate(lines, 1):
        cells = [c.strip() for c in line[1:].removesuffix("|").split("|")]
        if not line.startswith("|"):
            head = None
        elif head is None:
            head = cells
        elif not re.match(r"\|[-| ]+\|$", line):
            yield number, head, cells


def row_wrong(head, cells):
    if len(cells) != len(head):
        yield f"{len(cells)} cells under a head of {len(head)}"
    elif "" in cells[:-4]:
        yield "an empty cell"
    elif head == UNREACHED:
        if not re.fullmatch(r"`\w+(::\w+)+`", cells[0]) or len(cells[1].split()) < 2:
            yield "not a call and a reason"
    elif head[-2:] == ["Run by", "Must-fail edit"]:
        yield from cells_wrong(cells[-4:])
    else:
        yield f"a table that is not known: {' | '.join(head)}"


def calls_wrong(text, unreached, uncalled):
    listed = {name for _, head, cells in rows(text) if head == UNREACHED for name in names_in(cells[0])}
    wrong = [f"nobody calls {name}" for name in uncalled]
    wrong += [f"no run reaches {name}, and the map does not say so" for name in unreached if name not in listed]
    return wrong + [f"a run reaches {name}, and the map says that none does" for name in sorted(listed - set(unreached))]


def check(text, unreached, uncalled):
    """How many names there are, and what is wrong."""
    wrong, seen = [], []
    for number, line in enumerate(text.splitlines(), 1):
        seen += names_in(line)
        wrong += [f"{number}: no {sort(name)[0]} {name}" for name in names_in(line) if not sort(name)[1]]
        wrong += [f"{number}: without backquotes: {name}" for name in bare(line)]
    wrong += [f"{number}: {fault}" for number, head, cells in rows(text) for fault in row_wrong(head, cells)]
    wrong += [f"not in the map: {name}" for name in sorted(edits - set(seen)) + sorted(set(requirements()) - cited(text))]
    return len(seen), wrong + calls_wrong(text, unreached, uncalled)


def citations_wrong():
    return [f"{path}: no requirement {r}" for path in files() for r in sorted(cited(path.read_text(encoding="utf-8")) - set(requirements()))]


def with_cell(text, item, column, new):
    """The map with another cell, counted from the last one, in the first row of an item."""
    lines = text.splitlines(True)
    at = next(i for i, line in enumerate(lines) if line.startswith(f"| {item} |"))
    cells = lines[at].split("|")
    cells[-1 - column] = f" {new} "
    lines[at] = "|".join(cells)
    return "".join(lines)


def wrong_maps(text):
    """A map with something wrong, and a pattern that a complaint about it has."""
    for column, sorts in ((4, DEFINED), (3, PROVED), (1, GUARDED)):
        for nothing in ("", "-", "none", "see above", "vectors", "`docs/DECISIONS.md`" if column < 4 else "`led!colours_swapped`"):
            yield with_cell(text, "R4.1", column, nothing), rf"\d+: no name of a {' or '.join(sorted(sorts))}"
    for nothing in ("", "-", "none", "fuzzing", "vectors, fuzzing", "vectors: all; fuzzing", "`led.leds`", "clean"):
        yield with_cell(text, "R4.1", 2, nothing), r"\d+: no program, target of make or file: "
    for column in (1, 2, 3, 4):
        for nothing in ("no", "no edit", "no edit:", "no edit: none"):
            yield with_cell(text, "R4.1", column, nothing), r"\d+: no reason for nothing "
    yield with_cell(text, "R4.1", 5, ""), r"\d+: an empty cell"
    yield with_cell(text, "R4.1", 1, "`led!colours_swapped` | more"), r"\d+: 7 cells under a head of 6"
    yield text + "\n| Item | Run by |\n|---|---|\n| R4.1 | vectors |\n", r"\d+: a table that is not known"
    for name in ("led::LedRecord::check", "led.led_law", "led!colours_swapped"):
        yield text.replace(f"`{name}`", name, 1), rf"\d+: without backquotes: {name}"
    for name in ("led::LedRecord::invented", "led.invented", "led!invented", "docs/INVENTED.md", "invented"):
        yield with_cell(text, "R4.1", 1, f"`led!colours_swapped`, `{name}`"), rf"\d+: no .* {name}"
    yield text.replace("`led!colours_swapped`", "`led!highest_colour_6`"), "not in the map: led!colours_swapped"
    yield text.replace("R6.4", "R6.5"), "not in the map: R6.4"
    for reason, pattern in (("it is an example", "a run reaches mfg::Mfg::decode"), ("-", r"\d+: not a call and a reason")):
        yield text + f"\n| {' | '.join(UNREACHED)} |\n|---|---|\n| `mfg::Mfg::decode` | {reason} |\n", pattern


def wrong_sources(sources):
    """Crates in which a public call is not reached, and a pattern as above."""
    more = {"mfg": sources["mfg"] + "\npub fn unused(n: usize) -> usize {\n    n\n}\n"}
    yield sources | more, "nobody calls mfg::unused"
    recursive = {"mfg": more["mfg"].replace("\n    n\n", "\n    unused(n)\n")}
    yield sources | recursive, "nobody calls mfg::unused"
    yield sources | more | {"nak": sources["nak"] + "\nfn other() -> usize {\n    mfg::unused(1)\n}\n"}, "no run reaches mfg::unused"
    programs = {place: re.sub(r"\biter_bits\(", "other(", text) for place, text in sources.items() if re.match("vectors|inspect", place)}
    yield sources | programs, "no run reaches raw_card::Raw::iter_bits"


def selftest(text, sources, looked):
    """How many wrong maps and crates were tried, and the patterns of those that were not noticed."""
    trials = [(changed, looked, pattern) for changed, pattern in wrong_maps(text)]
    trials += [(text, calls.look(changed)[1:], pattern) for changed, pattern in wrong_sources(sources)]
    faults = [(check(changed, *looked)[1], pattern) for changed, looked, pattern in trials]
    return len(trials), [f"not noticed: {pattern}" for found, pattern in faults if not any(re.match(pattern, fault) for fault in found)]


def main():
    text, sources = (top / "docs/PROOF-MAP.md").read_text(encoding="utf-8"), calls.sources()
    public, *looked = calls.look(sources)
    names, wrong = check(text, *looked)
    wrong += citations_wrong()
    done = f"proof-map: {names} names, {len(edits)} must-fail edits, {len(requirements())} requirements, {public} public calls: all there"
    if not wrong and sys.argv[1:] == ["--selftest"]:
        tried, wrong = selftest(text, sources, looked)
        done += f"; {tried} wrong maps and crates tried, each noticed"
    print("\n".join(wrong) if wrong else done)
    sys.exit(1 if wrong else 0)


main()
