#!/usr/bin/env python3
"""The public calls of the library, and which of them a run reaches, as far as the text shows: calls.py

The library is the crates of crates.txt from the first to osdp_c. A run reaches a call if main of vectors or of inspect does, directly or through
other calls, or one of the calls for C of osdp_c, which the comparison makes. A call is `Type::name`, `module::name` or `name(`, taken apart by the
uses of its file. `.name(` counts for the types that the calling function names or that its calls give, and those that these hold, unless there are
more such types than places where the method is called, in the function or in one line of it: what is doubtful counts as not reached. A type that
has a trait has what the trait itself does. Another name of a type has all that the type has, and these are no calls of their own. `R::name` of a type
parameter is the call of its trait, and that of the types with this trait that a caller of the function names or that its calls give.
Prints the calls that no run reaches, and those that nobody calls.
"""
import re
import sys
from pathlib import Path

top = Path(__file__).resolve().parent.parent
PROGRAMS = ("vectors::main", "inspect::main")
LAST = "osdp_c"
HIDDEN = re.compile(r"//[^\n]*|b?\"(?:\\.|[^\"\\])*\"|b?'(?:\\.|[^'\\])'", re.S)  # comments, strings, characters
FUNCTION = re.compile(r"^( *)(pub(?:\(crate\))? )?(?:final )?(extern +)?fn (\w+)", re.M)
DECLARED = re.compile(r"(?:[^{;\[]|\[[^\]]*\])*;")  # a function of a trait that has no body
# what a function is in: the trait of an impl, if it is of one, and the type; or a trait
OWNER = re.compile(r"^(?:impl(?:<[^>]*>)? (?:(\w+)\S* for )?(\w+)|(pub(?:\(crate\))? )?trait (\w+))", re.M)
ALIAS = re.compile(r"^pub type (\w+) = (\w+)", re.M)
USE = re.compile(r"^(?:pub )?use ([^;]*);", re.M)
STRUCT = re.compile(r"^(?:pub(?:\(crate\))? )?(?:struct|enum) (\w+)[^{;]*\{(.*?)^\}", re.M | re.S)
TYPE = r"\b[A-Z]\w*\b"


class Function:
    def __init__(self, place, name, text, owner, trait, is_public, is_for_c):
        """The owner is a type or a trait; the trait is that of its impl, or the owner itself."""
        self.path, self.place, self.owner, self.text = f"{owner or place}::{name}", place, owner, text
        self.name, self.trait, self.is_public, self.is_for_c = name, trait, is_public, is_for_c
        self.has_self = bool(re.match(r"[^(]*\(\s*(?:mut |&(?:'\w+ )?(?:mut )?)?self\b", text))
        self.gives = re.findall(TYPE, re.search(r"\)(?:\s*->([^{\n]*))?", text)[1] or "") if ")" in text else []

    def of(self, owner, is_public):
        """The same function under another type: one that has the trait, or another name of its type."""
        return Function(self.place, self.name, self.text, owner, self.trait, is_public, self.is_for_c)

    def by_parameter(self):
        """(trait, name) of each call by a type parameter."""
        for parameter, name in set(re.findall(r"\b([A-Z])::(\w+)\(", self.text)):
            yield from ((trait, name) for trait in re.findall(rf"[<,]\s*{parameter}: (\w+)", self.text))

    def label(self):
        """crate::Type::name or crate::name, as in docs/PROOF-MAP.md"""
        crate, *rest = self.path.split("::")
        return "::".join([crate, *rest[-2 if self.owner else -1:]])


def without_contracts(text):
    """A file without what stands in the braces of requires and ensures."""
    while found := re.search(r"\b(?:requires|ensures)\*?(?: \w+)? \{", text):
        depth, at = 1, found.end()
        while depth:
            depth += {"{": 1, "}": -1}.get(text[at], 0)
            at += 1
        text = text[:found.start()] + text[at:]
    return text


def imported(item, before=""):
    """(name, path) of each name that a use item brings: `a::b`, `a::b as c`, or `a::{b, c::{self, d}}`"""
    item = item.strip()
    if found := re.fullmatch(r"((?:\w+::)*)\{(.*)\}", item, re.S):
        for part in re.findall(r"(?:[^,{}]|\{(?:[^{}]|\{[^{}]*\})*\})+", found[2]):
            yield from imported(part, before + found[1])
    elif found := re.fullmatch(r"((?:\w+::)*\w+)(?: as (\w+))?", item):
        path = (before + found[1]).removesuffix("::self")
        yield found[2] or path.split("::")[-1], path


def place_of(path):
    """crate, or crate::module"""
    if path.parent.name != "src":
        sys.exit(f"calls.py: not right under src/: {path}")
    crate, _, *module = path.with_suffix("").parts[-3:]
    return "::".join([crate, *(m for m in module if m not in ("lib", "main"))])


def sources():
    """{place: text of the file}"""
    return {place_of(path): path.read_text(encoding="utf-8") for path in sorted(top.glob("crates/*/src/**/*.rt"))}


def functions_of(place, text, public_traits):
    """Those with a body. Public are those that say so, those of a public trait of the repository, and those by which a type has such a trait."""
    if len(re.findall(r"\bfn \w", text)) != len(FUNCTION.findall(text)):
        sys.exit(f"calls.py: not every function of {place} is understood")
    for found in FUNCTION.finditer(text):
        if DECLARED.match(text, found.end()):
            continue
        end = re.compile(rf"^{found[1]}\}}", re.M).search(text, found.end())
        trait, of_type, is_pub, of_trait = ([*OWNER.finditer(text[:found.start()])][-1].groups() if found[1] else [None] * 4)
        owner = f"{place}::{of_type or of_trait}" if found[1] else None
        is_public = found[2] == "pub " or is_pub == "pub " or trait in public_traits
        yield Function(place, found[4], text[found.start(4):end.end() if end else len(text)], owner, trait or of_trait, is_public, bool(found[3]))


class Calls:
    def __init__(self, files):
        hidden = {place: without_contracts(HIDDEN.sub(" ", text)) for place, text in files.items()}
        self.uses = {place: dict(pair for item in USE.findall(text) for pair in imported(item)) for place, text in hidden.items()}
        structs = [(place, m) for place, text in hidden.items() for m in STRUCT.finditer(text)]
        self.held = {f"{place}::{m[1]}": (place, re.findall(r"[:(] *([A-Z]\w*)", m[2])) for place, m in structs}
        traits = {m[4] for text in hidden.values() for m in OWNER.finditer(text) if m[3] == "pub "}
        self.functions = {f.path: f for place, text in hidden.items() for f in functions_of(place, text, traits)}
        copied = [*self.copies([(m[1], f"{place}::{m[2]}") for place, text in hidden.items() for m in OWNER.finditer(text) if m[1]])]
        self.functions |= {f.path: f for f, _ in copied}
        copied += self.aliases([(f"{place}::{m[1]}", self.whole(place, m[2])) for place, text in hidden.items() for m in ALIAS.finditer(text)])
        self.functions |= {f.path: f for f, _ in copied}
        self.edges = {path: self.called_by(f) - {path} for path, f in self.functions.items()}
        for f, original in copied:
            self.edges[f.path].add(original)
        for f in [*self.functions.values()]:
            for trait, name in f.by_parameter():
                self.add_by_parameter(f, self.whole(f.place, trait), name)

    def copies(self, impls):
        """What a trait itself does for each type that has it, and the path of the trait's."""
        for trait, owner in impls:
            for f in [f for f in self.functions.values() if f.trait == trait and f.owner.endswith(f"::{trait}")]:
                if f"{owner}::{f.name}" not in self.functions:
                    yield f.of(owner, f.is_public), f.path

    def aliases(self, names):
        """The functions of a type under another name of it, and their path under its own."""
        return [(f.of(alias, False), f.path) for alias, owner in names for f in [*self.functions.values()]
                if f.owner == owner and f"{alias}::{f.name}" not in self.functions]

    def whole(self, place, path, owner=None):
        """The path of a function or a type, from its crate on."""
        first, _, rest = path.partition("::")
        crate = place.split("::")[0]
        if first == "Self":
            first = owner or first
        elif first in self.uses[place]:
            first = re.sub(r"^crate\b", crate, self.uses[place][first])
        elif first == "crate":
            first = crate
        elif not rest or f"{place}::{path}" in self.functions:
            first = f"{place}::{first}"
        path = f"{first}::{rest}" if rest else first
        # a crate hands on a name of one of its modules
        handed = f"{first}::{self.uses.get(first, {}).get(rest, '').removeprefix('crate::')}"
        return handed if handed in self.functions else path

    def add_by_parameter(self, function, trait, name):
        """A call of a trait's function by a type parameter: of the trait, and from each caller of the types that it has there."""
        self.edges[function.path] |= {f"{trait}::{name}"} & self.functions.keys()
        for caller in [f for f in self.functions.values() if function.path in self.edges[f.path]]:
            types = self.types_of(caller, caller.text, self.edges[caller.path])
            named = {f"{t}::{name}" for t in types} & self.functions.keys()
            self.edges[caller.path] |= {path for path in named if self.functions[path].trait == trait.split("::")[-1]}

    def types_of(self, function, text, called):
        """Those that a function's text, or a part of it, names; those that its calls give, and those that all these hold; of the text, its own too."""
        types = {self.whole(function.place, t) for t in re.findall(TYPE, text)}
        types |= {function.owner} if function.owner and text is function.text else set()
        types |= {self.whole(f.place, t, f.owner) for f in map(self.functions.get, called) for t in f.gives}
        return types | {self.whole(place, t) for place, held in map(self.held.get, types & self.held.keys()) for t in held}

    def called_by(self, function):
        text = function.text[function.text.index("("):]
        parts = [(text, function.text)] + [(line, line) for line in text.splitlines()]
        return set().union(*(self.called_in(function, part, naming) for part, naming in parts))

    def called_in(self, function, text, naming):
        """What a part of a function calls, by the types that `naming` names: the function's text, or the same part."""
        named = re.findall(r"(?<![.\w:])((?:\w+::)+\w+|\w+(?=\())", text)
        paths = {self.whole(function.place, p, function.owner) for p in named} & self.functions.keys()
        types = self.types_of(function, naming, paths)
        for name in set(re.findall(r"\.(\w+)\(", text)):
            methods = {f"{t}::{name}" for t in types if (f := self.functions.get(f"{t}::{name}")) and f.has_self}
            if len(methods) <= len(re.findall(rf"\.{name}\(", text)):
                paths |= methods
        return paths

    def reached(self):
        found, new = set(), {path for path, f in self.functions.items() if path in PROGRAMS or f.is_for_c and path.startswith(f"{LAST}::")}
        while new:
            found |= new
            new = set().union(*(self.edges[path] for path in new)) - found
        return found


def library():
    """The names of the library's crates."""
    names = re.findall(r"^(\w+)[^#:\n]*:", (top / "crates.txt").read_text(encoding="utf-8"), re.M)
    return names[:names.index(LAST) + 1]


def look(files):
    """How many public calls there are; those that no run reaches; those that nobody calls."""
    calls = Calls(files)
    crates = library()
    public = {path: f for path, f in calls.functions.items() if f.is_public and path.split("::")[0] in crates}
    reached, called = calls.reached(), set().union(*calls.edges.values())
    unreached = [f.label() for path, f in public.items() if path not in reached]
    uncalled = [f.label() for path, f in public.items() if path not in called and not f.is_for_c]
    return len(public), unreached, uncalled


if __name__ == "__main__":
    how_many, unreached, uncalled = look(sources())
    print(f"{how_many} public calls")
    print("\n".join([f"no run reaches {name}" for name in unreached] + [f"nobody calls {name}" for name in uncalled]))
