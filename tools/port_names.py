#!/usr/bin/env python3
"""Brings the names of definitions and lemmas to snake case: `declaredLen` and `head-back` become `declared_len` and `head_back`.

usage: tools/port_names.py [--list]      at the top of a checkout that port.py of the toolchain has just turned

Names are those that crates/*/specs and the lemma files of crates/*/proofs declare, and the parameters of definitions; what the toolchain makes
from the sources (goals, steps, labels) keeps its name. They are replaced in .antt files, in .rt files outside strings, and in must-fail edits, where
the names that port.py itself turned are replaced too. Facts and types keep their capital. It stops where two names would fall together.
"""
import collections
import os
import re
import sys

# What port.py turned in sources and specs, and left in the edits (its own list of them).
PORTED = """
answerOf atLeast atMost bitsOf blocksFrom byteAt bytesOf codeOf effectOf fieldsOf guardOf headOf inTable isRefused isWritten kindOf listTy outOf
putAt sliceAt sumOf topBits u32At upTo wordOf
all-fit all-pass at-body at-room both-left both-right by-both by-code by-kind by-row bytes-back bytes-fit code-fits comes-back cut-at each-at
each-back each-next filled-is filled-more filled-none first-byte first-ended first-signature first-spec fit-spec fits-word flat-append found-in
from-byte front-fits front-long front-rest goes-on head-spec high-byte high-word in-blocks in-order in-two is-row keep-append keep-at kept-whole
known-values last-one lends-again lent-spec low-byte low-word minus-is more-by next-bit next-fits next-word no-byte no-code no-more none-first
none-has not-negative o-is of-spec only-at out-written own-code part-to-end pass-all past-end put-clauses put-ended put-front put-spec reads-at
refused-as refused-end rest-more run-spec same-end same-length size-fits some-first start-spec too-long top-in turn-at walk-more went-on whole-room
word-bytes word-test written-is
""".split()

# Parameters of definitions.
PARAMETERS = "checkOf normaliseOf strictOf byteOf".split()

# A lemma that would have its function's name, and facts that join two words.
SPECIAL = {
    "not-empty": "not_empty_lem",
    "up-to": "up_to_lem",
    "only_at": "only_at_lem",
    "in_order": "in_order_lem",
    "Out-of": "OutOf",
    "Put-gave": "PutGave",
    "Wrote-at": "WroteAt",
}

TOKEN = re.compile(r"[A-Za-z0-9_'₀-₉-]+")
STRING = re.compile(r'b?"(?:[^"\\]|\\.)*"', re.S)
DECLARED = re.compile(r"^\s*(?:(?:abbrev|unfoldable|pub)\s+)*((?:[^\s:(){}=λ]+\s+)+):(?:\s|$)")


def files(*ends):
    for folder, dirs, names in os.walk("crates"):
        dirs[:] = sorted(d for d in dirs if d != "out")
        for n in sorted(names):
            if n.endswith(ends):
                yield os.path.join(folder, n)


def snake(name):
    name = re.sub(r"(?<=[a-z0-9])(?=[A-Z])", "_", name)
    name = re.sub(r"(?<=[A-Z])(?=[A-Z])", "_", name)
    return name.replace("-", "_").lower()


def declared():
    names = set()
    for path in files(".antt"):
        if path.endswith("Proof.antt"):
            continue
        with open(path) as f:
            for line in f:
                line = re.sub(r"\s*--.*", "", line)
                m = DECLARED.match(line)
                if m and not re.match(r"\s*(pub |unfoldable )*use ", line):
                    names.update(m.group(1).split())
    return names


def turned(names):
    return {n: SPECIAL.get(n) or snake(n) for n in names if n in SPECIAL or re.match(r"[a-z][A-Za-z0-9_'₀-₉-]*$", n) and re.search("[A-Z]|-", n)}


def replaced(text, table):
    return TOKEN.sub(lambda m: table.get(m.group(), m.group()), text)


def outside_strings(text, table):
    at, parts = 0, []
    for m in STRING.finditer(text):
        parts += [replaced(text[at:m.start()], table), m.group()]
        at = m.end()
    return "".join(parts + [replaced(text[at:], table)])


def main(argv):
    names = declared()
    table = turned(names) | turned(PARAMETERS)
    ported = {k: SPECIAL.get(v, v) for k, v in turned(PORTED).items()} | table
    fallen = collections.defaultdict(set)
    for n in names | set(table):
        fallen[table.get(n, n)].add(n)
    fallen = {k: v for k, v in fallen.items() if len(v) > 1}
    if "--list" in argv:
        for n in sorted(table):
            print(n, table[n])
    if fallen:
        print("these names would fall together:", fallen, file=sys.stderr)
        return 1
    if "--list" in argv:
        return 0
    for path in files(".antt", ".rt", ".edit"):
        with open(path) as f:
            old = f.read()
        if path.endswith(".rt"):
            new = outside_strings(old, table)
        elif path.endswith(".edit"):
            new = replaced(old, ported)
        else:
            new = replaced(old, table)
        if new != old:
            with open(path, "w") as f:
                f.write(new)
    return 0


if __name__ == "__main__":
    raise SystemExit(main(sys.argv[1:]))
