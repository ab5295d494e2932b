#!/usr/bin/env python3
"""Holds a static library to what is promised of libosdp.a: check.py ARCHIVE | check.py --selftest

No function needs more than 512 bytes of stack, nor a number of them that only the run shows; memmove is all that is needed from
outside; nothing is writable. One line says what was found. Exits with 1 where something is not so, and names it. For x86-64; needs binutils, --selftest gcc.
"""
import re
import subprocess
import sys
import tempfile
from pathlib import Path

MOST_STACK = 512
OUTSIDE = {"memmove"}


def said(*command):
    return subprocess.run(command, capture_output=True, text=True, check=True).stdout


def taken(instruction):
    """the bytes of stack that an instruction takes, 0 for one that gives some back, None where it cannot be told"""
    if instruction.startswith("push"):
        return 8
    if m := re.match(r"(sub|add) +\$0x([0-9a-f]+),%rsp$", instruction):
        n = int(m[2], 16)
        n -= (n >> 63) << 64
        return max(0, n if m[1] == "sub" else -n)
    if m := re.match(r"lea +(-?)0x([0-9a-f]+)\(%rsp\),%rsp$", instruction):
        return int(m[2], 16) if m[1] else 0
    if re.match(r"(mov +%rbp|lea +-?0x[0-9a-f]+\(%rbp\)),%rsp$", instruction):
        return 0
    written = re.match(r"(?!cmp|test).*,%[re]?spl?$|enter|pop +%rsp|xchg +%rsp", instruction)
    return None if written else 0


def functions(archive):
    """{name: its instructions}"""
    found = {}
    for line in said("objdump", "-d", "--no-show-raw-insn", archive).splitlines():
        if m := re.match(r"[0-9a-f]+ <(.+)>:$", line):
            instructions = found.setdefault(m[1], [])
        elif m := re.match(r" +[0-9a-f]+:\t([^#]+)", line):
            instructions.append(m[1].strip())
    return found


def frame(instructions):
    """all that is taken, whichever way the function goes, and what it keeps below the stack's end; None as above"""
    takes = [taken(i) for i in instructions]
    below = [int(n, 16) for i in instructions for n in re.findall(r"-0x([0-9a-f]+)\(%rsp[,)](?!,%rsp)", i)]
    return None if None in takes else sum(takes) + max(below, default=0)


def symbols(archive):
    """value, sort and name of each"""
    return re.findall(r"^([0-9a-f ]{16}) ([A-Za-z]) (.+)$", said("nm", archive), re.M)


def outside(archive):
    absent = {name for _, sort, name in symbols(archive) if sort in "Uwv"}
    return absent - {name for _, sort, name in symbols(archive) if sort not in "Uwv"}


def writable(archive):
    """sections and common symbols, with their bytes"""
    header = r"^ +\[ *\d+\] (\S.*?) +\S+ +[0-9a-f]{16} [0-9a-f]+ ([0-9a-f]+) [0-9a-f]+ +[A-Za-z]*W"
    held = re.findall(header, said("readelf", "-SW", archive), re.M)
    held += [(name, size) for size, sort, name in symbols(archive) if sort == "C"]
    return [(name, int(size, 16)) for name, size in held if int(size, 16)]


def check(archive):
    """what was found, and what is not as promised"""
    stack = {name: frame(instructions) for name, instructions in functions(archive).items()}
    needed, held = outside(archive), writable(archive)
    if not stack:
        return "no function", [f"{archive} has no function"]
    faults = [f"{f} needs a number of bytes of stack that only the run shows" for f, n in stack.items() if n is None]
    faults += [f"{f} needs {n} bytes of stack, above {MOST_STACK}" for f, n in stack.items() if n and n > MOST_STACK]
    faults += [f"{s} is needed from outside" for s in sorted(needed - OUTSIDE)]
    faults += [f"{s} has {n} writable bytes" for s, n in held]
    largest = max(stack, key=lambda f: stack[f] or 0)
    return (f"{len(stack)} functions, at most {stack[largest]} bytes of stack ({largest}); from outside {', '.join(sorted(needed)) or 'nothing'}; "
            f"{sum(n for _, n in held)} writable bytes"), faults


TRIALS = {
    "fine": ("void *memmove(void *, const void *, unsigned long); void fine(char *a, char *b, long n) { memmove(a, b, n); }", ""),
    "stack": ("char large(int i) { volatile char a[600]; a[i] = 1; return a[i / 2]; }", "large needs 6[0-9]+ bytes of stack"),
    "run": ("char grows(int n) { volatile char a[n]; a[0] = 1; return a[n - 1]; }", "grows needs a number"),
    "outside": ("int puts(const char *); int calls(void) { return 1 + puts(\"x\"); }", "puts is needed from outside"),
    "writable": ("static int hits; int counts(void) { return ++hits; }", r"\.bss has 4 writable bytes"),
}


def selftest():
    """each promise is broken by a small library of its own, and only that one is reported"""
    wrong = []
    with tempfile.TemporaryDirectory() as folder:
        for name, (source, expected) in TRIALS.items():
            base = Path(folder) / name
            base.with_suffix(".c").write_text(source)
            said("gcc", "-O1", "-c", "-fno-stack-protector", "-o", f"{base}.o", f"{base}.c")
            said("ar", "rcs", f"{base}.a", f"{base}.o")
            faults = check(f"{base}.a")[1]
            if len(faults) != (1 if expected else 0) or faults and not re.match(expected, faults[0]):
                wrong.append(f"{name}: {faults}")
    return f"selftest: {len(TRIALS)} libraries tried", wrong


found, faults = selftest() if sys.argv[1:] == ["--selftest"] else check(sys.argv[1])
print(found)
for fault in faults:
    print(f"{Path(sys.argv[0]).name}: {fault}", file=sys.stderr)
sys.exit(1 if faults else 0)
