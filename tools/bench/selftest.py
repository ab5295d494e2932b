#!/usr/bin/env python3
"""Whether the bench notices what is wrong: selftest.py LIBRARY READERS TEXTS, the three archives; run.sh --selftest calls it

A bench over wrong.c has to name the call and to exit with 1, before it prints a time if the call is wrong from the start. A report on times
that miss a target has to name it and to exit with 1. Everything goes to build/bench-selftest."""
import os
import shutil
import subprocess
import sys
from pathlib import Path

sys.dont_write_bytecode = True
TOOLS = Path(__file__).resolve().parent
OUT = TOOLS.parent.parent / "build/bench-selftest"
sys.path.insert(0, str(TOOLS.parent))
import kinds

# what is wrong at LED, how the bench is called, and the call that has to be named; the late ones are right until something is measured
WRONG = (
    ("refuses all", (), "LED, 14 bytes, check: the answer is -5, not 0"),
    ("accepts all", (), "LED, 0 bytes, check: the answer is 0, not -5"),
    ("a byte", (), "LED, 14 bytes, normalise: byte 7 of the output is"),
    ("a byte behind", (), "LED, 14 bytes, normalise: byte 0 behind the output is 0x00"),
    ("a number", (), "LED, 14 bytes, read: the answer is"),
    ("the other build", (), "LED, 14 bytes, check-beside: the answer is -5, not 0"),
    ("a late byte", (), "LED, 14 bytes, normalise: after the last round byte 13 of the output is"),
    ("a late answer", (), "LED, 14 bytes, normalise: its "),
)
# the same of frames
FRAMES = (
    ("refuses all", (), "CRC frame, 8 bytes, read: the answer is -21, not "),
    ("accepts all", (), "CRC frame, 0 bytes, read: the answer is 0, not -4"),
    ("accepts a wrong check", (), "checksum frame, 64 bytes, read: the answer is 0, not -21"),
    ("a number", (), "checksum frame, 1440 bytes, read: the answer is"),
    ("writes all", (), "CRC frame, 64 bytes, write: the answer is 64, not -1"),
    ("a wrong CRC", (), "CRC frame, 8 bytes, write: byte 6 of the output is"),
    ("a wrong checksum", (), "checksum frame, 8 bytes, write: byte 7 of the output is"),
    ("a wrong length", (), "CRC frame, 256 bytes, write: byte 2 of the output is"),
    ("a byte short", (), "CRC frame, 8 bytes, write: the answer is 7, not 8"),
    ("a byte", (), "checksum frame, 1440 bytes, write: byte 720 of the output is"),
    ("a byte behind", (), "CRC frame, 1440 bytes, write: byte 0 behind the output is 0x00"),
    ("another start", (), "CRC, 1440 bytes, crc: the answer is"),
    ("a number", ("count",), "CRC frame, 8 bytes, read: the answer is"),
    ("a late byte", (), "CRC frame, 8 bytes, write: after the last round byte 7 of the output is"),
    ("a late answer", (), "checksum frame, 64 bytes, write: its "),
)
# the same of the check of a text, by words and singly
TEXTS = (
    ("words", "refuses all", (), "printable text, 0 bytes, words: the answer is 0, not 1"),
    ("words", "accepts all", (), "printable text, 1 bytes, words: the answer is 1, not 0"),
    ("words", "a number", (), "printable text, 255 bytes, words: the answer is 2, not 1"),
    ("words", "not the first byte", (), "printable text, 8 bytes, words: the answer is 1, not 0"),
    ("words", "not the last byte", (), "printable text, 255 bytes, words: the answer is 1, not 0"),
    ("words", "only whole words", (), "printable text, 15 bytes, words: the answer is 1, not 0"),
    ("words", "only the first word", (), "printable text, 16 bytes, words: the answer is 1, not 0"),
    ("words", "accepts 0x7F", (), "printable text, 64 bytes, words: the answer is 1, not 0"),
    ("words", "accepts all", ("count",), "printable text, 1 bytes, words: the answer is 1, not 0"),
    ("words", "a late answer", (), "printable text, 0 bytes, words: its "),
    ("singly", "accepts all", (), "printable text, 1 bytes, singly: the answer is 1, not 0"),
    ("singly", "not the last byte", (), "printable text, 7 bytes, singly: the answer is 1, not 0"),
    ("singly", "a late answer", (), "printable text, 0 bytes, singly: its "),
)
# what is wrong at each kind in its turn, and the call that has to be named
EACH = (
    ("refuses all", "{name}, {least} bytes, check: the answer is -5, not 0"),
    ("accepts all", "{name}, 0 bytes, check: the answer is 0, not -"),
    ("a byte", "{name}, {least} bytes, normalise: byte {middle} of the output is"),
    ("a number", "{name}, {least} bytes, read: the answer is"),
)

# times that meet every target, by call, and changes each of which misses one target
TIMES = {"check": 3, "decode": 20, "decode-of-type": 8, "normalise": 4, "decode+encode": 40, "decode+encode-of-type": 36, "read": 4,
         "decode+number-of-type": 9, "memcpy": 4, "nothing": 2}
FRAME_TIMES = {"read": 12, "rust-read": 12, "write": 12, "rust-write": 12, "nothing": 2}
CRC_TIMES = {"crc": 12, "rust-crc": 9, "nothing": 2}
TEXT_TIMES = {15: {"words": 4, "rust-text": 5, "reads-on": 9, "singly": 3, "nothing": 2},
              16: {"words": 4, "rust-text": 9, "reads-on": 3, "singly": 8, "nothing": 2}}
MISSES = (
    ("XRD", 1, "check", {"check": 2.5, "decode": 4}),
    ("OUT", 65544, "check", {"check": 9.6}),
    ("RAW", 4, "check", {"check": 8.5}),
    ("NAK", 1, "normalise", {"normalise": 30}),
    ("LED", 65534, "normalise", {"normalise": 10}),
    ("FMT", 258, "normalise", {"normalise": 30}),
    ("MFG", 65546, "normalise", {"normalise": 8}),
    ("CRC frame", 1440, "read", {"read": 12.1}),
    ("checksum frame", 8, "write", {"write": 12.1}),
    ("printable text", 16, "words", {"words": 5.2}),
    ("printable text", 15, "words", {"words": 4.1}),
)

failed = []


def expect(holds, what):
    if not holds:
        failed.append(what)
        print(f"selftest: {what}")


def run(*command, **environment):
    return subprocess.run([str(c) for c in command], capture_output=True, text=True, env={**os.environ, **environment})


def made(*command):
    done = run(*command)
    if done.returncode:
        sys.exit(f"{' '.join(map(str, command))}\n{done.stdout}{done.stderr}")


def renamed(archive, copy, prefixes):
    """a copy whose symbols have prefixes"""
    made("objcopy", *(f"--redefine-sym={name}={prefix}{name}" for name, prefix in prefixes.items()), archive, copy)
    return copy


def place(kind):
    return f"{kind.side} {kind.code:02X}"


def bench(library, readers, texts):
    """over wrong.c, whose calls are in none of the archives: neither the library's, nor the readers', nor those of texts, nor the other build's"""
    checks, others = ("osdp_check_command", "osdp_check_reply"), ("osdp_normalise_command", "osdp_normalise_reply")
    right = renamed(library, OUT / "right.a", dict.fromkeys(checks + others, "right_"))
    beside = renamed(library, OUT / "beside.a", {**dict.fromkeys(checks, "unused_"), **dict.fromkeys(others, "beside_")})
    calls = [*(f"bench_read_{k.name.lower()}" for k in kinds.KINDS), "bench_read_frame", "bench_write_frame", "bench_crc"]
    readers = renamed(readers, OUT / "readers.a", dict.fromkeys(calls, "right_"))
    texts = renamed(texts, OUT / "texts.a", dict.fromkeys(("bench_printable_text", "bench_printable_singly"), "right_"))
    listed = " ".join(f'READER({k.name.lower()}, "{place(k)}")' for k in kinds.KINDS)
    made("cc", "-O2", "-Wall", "-Werror", f"-DREADERS={listed}", "-c", TOOLS / "wrong.c", "-o", OUT / "wrong.o")
    made(TOOLS / "build.sh", OUT / "bench", OUT / "wrong.o", readers, texts, "--cfg", "beside", "-C", f"link-arg={right}", "-C", f"link-arg={beside}")
    return OUT / "bench"


def wrong_calls():
    """what is wrong, at which place, how the bench is called, and the call that has to be named"""
    for what, arguments, named in WRONG:
        yield what, place(kinds.KINDS[0]), arguments, named
    for what, arguments, named in FRAMES:
        yield what, "frame", arguments, named
    for at, what, arguments, named in TEXTS:
        yield what, at, arguments, named
    for kind in kinds.KINDS:
        for what, named in EACH:
            yield what, place(kind), ("count",), named.format(name=kind.name, least=kind.least, middle=kind.least // 2)


def try_calls(binary):
    expect(run(binary).returncode == 0, "the bench over the right calls fails")
    for what, at, arguments, named in CALLS:
        said = run(binary, *arguments, WRONG=what, AT=at)
        where = f"{at}: {what} {' '.join(arguments)}"
        expect(said.returncode == 1 and named in said.stderr, f"{where}: not noticed, or not named: {said.stderr[:200]}")
        expect("late" in what or not said.stdout, f"{where}: noticed after something was measured")


def report(name, changed, change):
    """the report on TIMES with a change, and whether it wrote its page, there and to the documents"""
    folder = OUT / name
    (folder / "docs").mkdir(parents=True)
    times = {(k.name, size): TIMES for k in kinds.KINDS for size in sorted({k.least, k.most})}
    times.update({(f"{check} frame", size): FRAME_TIMES for check in ("CRC", "checksum") for size in (8, 1440)})
    times["CRC", 1440] = CRC_TIMES
    times.update({("printable text", size): calls for size, calls in TEXT_TIMES.items()})
    times["refused text", 255] = TEXT_TIMES[15]
    times[changed] = {**times[changed], **change}
    lines = [f"{kind}\t{size}\t{call}\t{ns}" for (kind, size), calls in times.items() for call, ns in calls.items()]
    for place in "12":
        (folder / f"place-{place}-run-1.tsv").write_text("\n".join(lines) + "\n")
    said = run(sys.executable, TOOLS / "report.py", folder, folder / "docs")
    return said, (folder / "PERFORMANCE.md").exists(), (folder / "docs/PERFORMANCE.md").exists()


def try_reports():
    said, page, documents = report("met", ("RAW", 4), {})
    expect(said.returncode == 0 and page and documents, f"a report of met targets fails: {said.stdout[-300:]}{said.stderr[-300:]}")
    for kind, size, call, change in MISSES:
        where = f"{kind}, {size:,} byte{'s' if size > 1 else ''}, {call}"
        said, page, documents = report(f"{kind}-{size}", (kind, size), change)
        named = f"target missed: {where}:" in said.stdout and f"; 1 of {len(MISSES)} targets missed" in said.stdout
        expect(said.returncode == 1 and named, f"{where}: a target is missed, and the report does not say so: {said.stdout[-300:]}")
        expect(page and not documents, f"{where}: the page is not written, or copied to the documents")


CALLS = tuple(wrong_calls())
shutil.rmtree(OUT, ignore_errors=True)
OUT.mkdir(parents=True)
try_calls(bench(*sys.argv[1:]))
try_reports()
print(f"bench selftest: {len(CALLS)} wrong calls and {len(MISSES)} missed targets, {len(failed)} not noticed")
sys.exit(1 if failed else 0)
