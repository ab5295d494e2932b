#!/usr/bin/env python3
"""PERFORMANCE.md and performance.svg from the measurements in a folder: report.py FOLDER [DOCS]

Both files go to the folder, and if every target is met to DOCS too. The targets are stated here. A missed one is named, and the exit status is 1."""
import platform
import subprocess
import sys
from collections import defaultdict
from math import log10
from operator import sub, truediv
from pathlib import Path
from statistics import median

sys.dont_write_bytecode = True
sys.path.insert(0, str(Path(__file__).resolve().parent.parent))
import kinds

HERE = Path(sys.argv[1])
COPIED = {k.name for k in kinds.KINDS if k.copied}
PLACES = ("1", "2")
LONG = 1024
AS_MEASURED, LOOP_OFF = "as measured", "with the empty loop taken off"
MEASURES = (AS_MEASURED, LOOP_OFF)


def runs(place):
    """a run each: {(kind, size): {call: ns}}"""
    out = []
    for f in sorted(HERE.glob(f"place-{place}-run-*.tsv")):
        run = defaultdict(dict)
        for line in f.read_text().splitlines():
            kind, size, call, ns = line.split("\t")
            run[kind, int(size)][call] = float(ns)
        out.append(run)
    return out


def without_loop(run):
    """a run without the loop and the call of nothing, which are part of every time"""
    return {key: {call: max(0.1, ns - calls["nothing"]) for call, ns in calls.items()} for key, calls in run.items()}


def counts():
    """{(kind, size): {call: instructions}}, empty if valgrind is absent"""
    out = defaultdict(dict)
    cases = HERE / "counts.tsv"
    if not cases.exists():
        return out
    for i, line in enumerate(cases.read_text().splitlines(), 1):
        kind, size, call = line.split("\t")
        dump = (HERE / "counts" / f"call.{i}").read_text()
        out[kind, int(size)][call] = int(next(l for l in dump.splitlines() if l.startswith("totals:")).split()[1])
    for calls in out.values():
        nothing = calls.pop("nothing")
        for call in calls:
            calls[call] -= nothing
    return out


RUNS = {AS_MEASURED: {p: runs(p) for p in PLACES}}
RUNS[LOOP_OFF] = {p: [without_loop(run) for run in RUNS[AS_MEASURED][p]] for p in PLACES}
N = counts()
MEASURED = list(RUNS[AS_MEASURED]["1"][0])
KEYS = [key for key in MEASURED if key[0] in {k.name for k in kinds.KINDS}]
KINDS = list(dict.fromkeys(k for k, _ in KEYS))
SIZES = {k: [n for kind, n in KEYS if kind == k] for k in KINDS}
FRAMES = [key for key in MEASURED if key[0].endswith(" frame")]
CRC = next(key for key in MEASURED if key[0] == "CRC")
TEXTS = [key for key in MEASURED if key[0] == "printable text"]
STOPPED = next(key for key in MEASURED if key[0] == "refused text")
CALLS = list(RUNS[AS_MEASURED]["1"][0][KEYS[0]])
BESIDE = "check-beside" in CALLS


def took(key, call, place):
    return median(run[key][call] for run in RUNS[AS_MEASURED][place])


def best(key, call):
    return min(took(key, call, p) for p in PLACES)


def both(key, call, other, measure, how=truediv):
    """the ratio, or with sub the difference, at each place: the median of the runs', since the calls of a run were interleaved"""
    return [median(how(run[key][call], run[key][other]) for run in RUNS[measure][p]) for p in PLACES]


def two(key, call, other, measure, how=truediv):
    return " · ".join(f"{r:.2f}" for r in both(key, call, other, measure, how))


def ns(key, call):
    t = best(key, call)
    return f"{t:.1f}" if t < 100 else f"{t:,.0f}"


def sized(key):
    return f"{key[0]}, {key[1]:,} byte{'' if key[1] == 1 else 's'}"


def worst(call, other, measure, keys, how=truediv):
    """the largest ratio or difference, at the worse of the two places, and where it is"""
    largest, key = max((max(both(key, call, other, measure, how)), key) for key in keys)
    return f"{largest:.2f} ({sized(key)})"


# The targets

NAMES = {"decode": "the Rust's decode", "decode+encode": "the Rust's decode and encode", "memcpy": "memcpy",
         "rust-read": "the Rust's frame reader", "rust-write": "the Rust's frame writer", "rust-text": "the Rust's check of a text",
         "singly": "the byte loop"}
HOW = {truediv: "of", sub: "ns more than"}


class Target:
    """A call takes at most so much of another's time, or with sub so many ns more, at some sizes; the measure is the one on which this is held."""

    def __init__(self, call, other, limit, where, measure, at, among=KEYS, how=truediv):
        self.call, self.other, self.limit, self.where, self.measure, self.how = call, other, limit, where, measure, how
        self.than = f"{HOW[how]} {NAMES[other]}"
        self.keys = [key for key in among if at(*key)]
        if not self.keys:
            sys.exit(f"report.py: nothing was measured for the target of {call}, {where}")

    def missed(self, measure):
        """where it is missed at either place, with the better of the two and the worse"""
        for key in self.keys:
            r = both(key, self.call, self.other, measure, self.how)
            if max(r) > self.limit:
                yield f"{sized(key)}, {self.call}: {min(r):.3f} to {max(r):.3f} {self.than} {measure}, above {self.limit}"

    def row(self):
        largest = " | ".join(worst(self.call, self.other, m, self.keys, self.how) for m in MEASURES)
        met = "no" if any(self.missed(self.measure)) else "yes"
        return f"| {self.call}, {self.where} | {self.limit} {self.than} | {self.measure} | {met} | {largest} |"


def led_long(kind, size):
    return kind == "LED" and size >= 140


TARGETS = (
    Target("check", "decode", 0.5, "every size", AS_MEASURED, lambda kind, size: True),
    Target("check", "decode", 0.4, "every size", LOOP_OFF, lambda kind, size: True),
    Target("check", "decode", 0.33, "up to 64 bytes", LOOP_OFF, lambda kind, size: size <= 64),
    Target("normalise", "decode+encode", 0.33, "up to 64 bytes", AS_MEASURED, lambda kind, size: size <= 64),
    Target("normalise", "decode+encode", 0.15, "LED from 140 bytes on", AS_MEASURED, led_long),
    Target("normalise", "decode+encode", 0.5, "other sizes", AS_MEASURED, lambda kind, size: size > 64 and not led_long(kind, size)),
    Target("normalise", "memcpy", 1.5, f"the longest size, from {LONG:,} bytes on, where the tail is copied unread", AS_MEASURED,
           lambda kind, size: kind in COPIED and LONG <= size == max(SIZES[kind])),
    Target("read", "rust-read", 1.0, "a frame of every size and check", AS_MEASURED, lambda kind, size: True, FRAMES),
    Target("write", "rust-write", 1.0, "a frame of every size and check", AS_MEASURED, lambda kind, size: True, FRAMES),
    Target("words", "rust-text", 0.45, "a text from 16 bytes on", LOOP_OFF, lambda kind, size: size >= 16, TEXTS),
    Target("words", "singly", 1.0, "a text of every length", AS_MEASURED, lambda kind, size: True, TEXTS, sub),
)
AIM = 0.25  # for what has 0.33 as its target


def targets():
    yield "| Target | At most | Measure | Met | Largest as measured | Largest with the empty loop taken off |"
    yield "|---|---|---|---|---|---|"
    for target in TARGETS:
        yield target.row()


def missed():
    return [line for target in TARGETS for line in target.missed(target.measure)]


def missed_on_the_other():
    return [line for target in TARGETS for m in MEASURES if m != target.measure for line in target.missed(m)]


def aimed():
    """how many of the short sizes reach the aim at both places"""
    short = [key for key in KEYS if key[1] <= 64]
    reached = sum(max(both(key, "normalise", "decode+encode", AS_MEASURED)) <= AIM for key in short)
    return f"Of the {len(short)} sizes up to 64 bytes, normalise takes at most {AIM} of the Rust's time, as measured, in {reached}."


def over_beside(key, call):
    """this build over the other, each at its better place, since the two do not stand at the same one"""
    better = lambda runs, call: min(run[key][call] for run in runs)
    return median(better(runs, call) / better(runs, call + "-beside") for runs in zip(*RUNS[LOOP_OFF].values()))


def beside():
    yield "| Kind | Bytes | check | other build | ratio | normalise | other build | ratio |"
    yield "|---|--:|--:|--:|--:|--:|--:|--:|"
    for key in KEYS:
        cells = (f"{ns(key, call)} | {ns(key, call + '-beside')} | {over_beside(key, call):.2f}" for call in ("check", "normalise"))
        yield f"| {key[0]} | {key[1]:,} | {' | '.join(cells)} |"


def slower():
    """where a long payload takes more than 1.05 of the other build's time; below 2 ns the place of the code decides, and nothing is said"""
    for key in KEYS:
        for call in ("check", "normalise"):
            r = over_beside(key, call)
            if key[1] >= LONG and r > 1.05 and best(key, call) - best(key, "nothing") > 2:
                yield f"{sized(key)}, {call}: {r:.2f} of the other build's time"


# a call of this build, and the Rust's that it is set against
BY_CODE = (("check", "decode"), ("normalise", "decode+encode"))
OF_KIND = (("check", "decode-of-type"), ("normalise", "decode+encode-of-type"))
READ = ("read", "decode+number-of-type")
OF_FRAMES = (("read", "rust-read"), ("write", "rust-write"))
OF_TEXTS = ("words", "rust-text")
TEXT_CALLS = (*OF_TEXTS, "reads-on", "singly")
SHOWN = {"check": "check", "normalise": "normalise", "read": "decode and tail"}


def table():
    yield ("| Kind | Bytes | check | Rust decode | as measured | loop off | normalise | Rust decode+encode | as measured | loop off | memcpy "
           "| normalise / memcpy, as measured |")
    yield "|---|--:|" + "--:|" * 10
    for key in KEYS:
        cells = [key[0], f"{key[1]:,}"]
        for call, rust in BY_CODE:
            cells += [ns(key, call), ns(key, rust), *(two(key, call, rust, m) for m in MEASURES)]
        yield f"| {' | '.join(cells)} | {ns(key, 'memcpy')} | {two(key, 'normalise', 'memcpy', AS_MEASURED)} |"


def readers():
    yield "| Kind | Bytes | Rattle | Rust | as measured | loop off |"
    yield "|---|--:|--:|--:|--:|--:|"
    for key in KEYS:
        ratios = " | ".join(two(key, *READ, m) for m in MEASURES)
        yield f"| {key[0]} | {key[1]:,} | {ns(key, READ[0])} | {ns(key, READ[1])} | {ratios} |"


def frames():
    yield "| Frame | Bytes | read | Rust | as measured | loop off | write | Rust | as measured | loop off |"
    yield "|---|--:|" + "--:|" * 8
    for key in FRAMES:
        cells = [key[0], f"{key[1]:,}"]
        for call, rust in OF_FRAMES:
            cells += [ns(key, call), ns(key, rust), *(two(key, call, rust, m) for m in MEASURES)]
        yield f"| {' | '.join(cells)} |"


def crc_alone():
    """nanoseconds a byte"""
    ours, rust = (f"{best(CRC, call) / CRC[1]:.2f}" for call in ("crc", "rust-crc"))
    ratios = ", ".join(f"{two(CRC, 'crc', 'rust-crc', m)} {shown}" for m, shown in ((AS_MEASURED, "as measured"), (LOOP_OFF, "loop off")))
    return f"The CRC alone, over {CRC[1]:,} bytes: {ours} ns a byte, the Rust's {rust}; {ratios}. No target is set for it."


def texts():
    yield ("| Bytes | words | Rust | loop before | byte loop | words / Rust, as measured | loop off | words / loop before, as measured | loop off "
           "| words - byte loop, ns |")
    yield "|--:|" + "--:|" * 9
    for key in TEXTS:
        times = [ns(key, call) for call in TEXT_CALLS]
        ratios = [two(key, "words", other, m) for other in ("rust-text", "reads-on") for m in MEASURES]
        yield f"| {key[1]} | {' | '.join(times + ratios)} | {two(key, 'words', 'singly', AS_MEASURED, sub)} |"


def gained():
    """where the words take less time than the loop before, and where more"""
    ratios = {key[1]: both(key, "words", "reads-on", AS_MEASURED) for key in TEXTS}
    less = ", ".join(str(n) for n, r in ratios.items() if max(r) < 1)
    more = ", ".join(str(n) for n, r in ratios.items() if min(r) > 1)
    return f"At both places, as measured, words take less time than the loop before at the lengths {less or '(none)'}, and more at {more or '(none)'}."


def stopped():
    """what a text takes that is refused at its first byte"""
    names = ("words", "the Rust", "the loop before", "the byte loop")
    times = ", ".join(f"{name} {ns(STOPPED, call)} ns" for name, call in zip(names, TEXT_CALLS))
    return f"A text of {STOPPED[1]} bytes that is refused at its first: {times}."


def largest():
    yield "| Call | over | as measured | with the empty loop taken off |"
    yield "|---|---|---|---|"
    for over, pairs in (("the Rust by code byte", BY_CODE), ("the Rust of the kind", (*OF_KIND, READ))):
        for call, other in pairs:
            yield f"| {SHOWN[call]} | {over} | " + " | ".join(worst(call, other, m, KEYS) for m in MEASURES) + " |"
    for call, other in OF_FRAMES:
        yield f"| {call} a frame | {NAMES[other]} | " + " | ".join(worst(call, other, m, FRAMES) for m in MEASURES) + " |"
    yield f"| words of a text | {NAMES[OF_TEXTS[1]]} | " + " | ".join(worst(*OF_TEXTS, m, TEXTS) for m in MEASURES) + " |"


def of_type():
    yield "| Kind | Bytes | check / decode | loop off | normalise / decode+encode | loop off |"
    yield "|---|--:|--:|--:|--:|--:|"
    for k in KINDS:
        for n in sorted({SIZES[k][0], SIZES[k][len(SIZES[k]) // 2], SIZES[k][-1]}):
            yield f"| {k} | {n:,} | " + " | ".join(two((k, n), *pair, m) for pair in OF_KIND for m in MEASURES) + " |"


GROWING = {"check": "check", "decode": "Rust decode", "normalise": "normalise", "decode+encode": "Rust decode+encode", READ[0]: "Rattle readers",
           READ[1]: "Rust decode of the kind", "memcpy": "memcpy"}


def growth():
    yield f"| Kind | {' | '.join(GROWING.values())} |"
    yield "|---|" + "--:|" * len(GROWING)
    for k in KINDS:
        if len(SIZES[k]) < 2:
            continue
        lo, hi = (k, SIZES[k][-2]), (k, SIZES[k][-1])
        per = lambda call: max(0.0, min(took(hi, call, p) - took(lo, call, p) for p in PLACES) / (hi[1] - lo[1]))
        yield f"| {k} ({lo[1]:,} to {hi[1]:,}) | " + " | ".join(f"{per(call):.3f}" for call in GROWING) + " |"


def counted(key, pairs):
    c = N[key]
    return " | ".join(f"{c[a]:,} | {c[b]:,} | {c[a] / c[b]:.2f}" for a, b in pairs)


def instructions():
    yield "| Kind | Bytes | check | Rust decode | ratio | normalise | Rust decode+encode | ratio | Rattle readers | Rust decode of the kind | ratio |"
    yield "|---|--:|" + "--:|" * 9
    for k in KINDS:
        for n in sorted({SIZES[k][0], SIZES[k][-1]}):
            yield f"| {k} | {n:,} | {counted((k, n), (*BY_CODE, READ))} |"


def frame_instructions():
    yield "| Frame | Bytes | read | Rust | ratio | write | Rust | ratio |"
    yield "|---|--:|" + "--:|" * 6
    for key in FRAMES:
        yield f"| {key[0]} | {key[1]:,} | {counted(key, OF_FRAMES)} |"


def text_instructions():
    yield "| Text, bytes | words | Rust | loop before | byte loop |"
    yield "|--:|--:|--:|--:|--:|"
    for key in TEXTS:
        yield f"| {key[1]} | " + " | ".join(f"{N[key][call]:,}" for call in TEXT_CALLS) + " |"


def cpu():
    try:
        line = next(l for l in Path("/proc/cpuinfo").read_text().splitlines() if l.startswith("model name"))
        return line.split(":")[1].strip()
    except (OSError, StopIteration):
        return platform.machine()


def listed(lines):
    return [f"- {line}" for line in lines] or ["Nothing."]


HEAD = (
    "Nanoseconds a call, on a payload that is accepted: the median of interleaved rounds. Each time has in it the loop that measures and a call by",
    "pointer, which alone take {nothing:.1f} ns. A ratio is the C call's time over the Rust's, at two places of the code, 32 bytes apart, since a byte",
    "loop that crosses a 64-byte line can take twice as long, on either side. It is given as measured, and (loop off) with the time of the empty loop",
    "taken off both sides, where what is left counts as 0.1 ns at least. The C calls take a code byte, and so does the Rust here:",
    "`CommandCode::from_byte`, `Command::decode`, `encode_data`. The Rust's answer owns its memory, and the time to get and free that is its own.",
    "Answers and every byte of the output are held to what the Rust gives, before anything is timed and after a call's last round.",
)
READERS = (
    "LED and OUT: every record, after one check (`led_walker`; `check`, `count`, `decode_at`). The other kinds: `decode`, and the tail by its own call,",
    "which checks the payload once more. Beside it the Rust type's own `decode`; neither takes a code byte. Rattle's tail is a part of the payload, the",
    "Rust's a copy. Both sides add up all fields, the tail's length and its last byte (`crates/bench_read`, `tools/bench/number.rs`), and that is in the",
    "times. No target is set; the largest ratio as measured is {largest}.",
)
OF_FRAME = (
    "Bytes are those of the whole frame. `crates/frame` lends the payload, and writes into a buffer that it is lent; beside it is the plain Rust of",
    "`tools/judge/frame.rs`, which gives a `Vec` each time. Both sources work the CRC out bit by bit. Both readers add up all fields, the payload's",
    "length and its last byte, and that is in the times.",
)
OF_TEXT = (
    "Whether every byte of a text lies in 0x20 to 0x7E. `crates/text` takes eight bytes as one word and what is left singly, and stops at the first",
    "word or byte that it refuses: words. Beside it are the Rust's `validate_ascii`, which stops too; the loop that `crates/text` had before, which",
    "read on to the end, so that the compiler could take many bytes at a time; and a plain loop over bytes that stops. The texts of the table are",
    "accepted, so all of each is read.",
)


def page():
    rustc = subprocess.run(["rustc", "--version"], capture_output=True, text=True, check=True).stdout.strip()
    yield from ("# Speed", "")
    yield f"Made by `make performance` ({cpu()}, {rustc}, opt-level 3). `make bench` measures anew and leaves this page alone."
    yield from ("", "![Ratios to the Rust, and growth with the length](performance.svg)", "")
    yield from (line.format(nothing=median(best(key, "nothing") for key in KEYS)) for line in HEAD)
    yield from ("", *table())
    yield from section("Targets", (
        "Each is held on the measure that is named, and missed where the ratio, or the difference, of the worse place is above the limit.",), [
        *targets(), "", "Missed:", "", *listed(missed()), "", "Above the limit on the measure on which the target is not held:", "",
        *listed(missed_on_the_other()), "", aimed()])
    yield from section("Readers", (line.format(largest=worst(*READ, AS_MEASURED, KEYS)) for line in READERS), readers())
    yield from section("Frames", OF_FRAME, [*frames(), "", crc_alone()])
    yield from section("Printable text", OF_TEXT, [*texts(), "", gained(), stopped()])
    yield from section("Largest ratios", ("At the worse of the two places.",), largest())
    yield from section("Growth with the length", (
        "Nanoseconds for each byte more, between the two longest sizes. Where check does not read the tail, its time does not grow.",), growth())
    yield from section("Against the Rust of the kind alone", (
        "The same C calls, over the Rust type's own `decode` and `encode`, which are not asked for a code byte.",), of_type())
    if N:
        yield from section("Instructions", (
            "Of one call, without those of a call of nothing, by `valgrind --tool=callgrind`, on the same payloads. They do not depend on the machine's",
            "load or on the code's place. A long copy by the C library, which both sides make, counts as one instruction a byte."),
            [*instructions(), "", *frame_instructions(), "", *text_instructions()])
    if BESIDE:
        yield from beside_section()


def section(title, words, body):
    yield from ("", f"## {title}", "", *words, "", *body)


def beside_section():
    return section("Beside another build", (
        "Both builds in the same rounds; a ratio is this build's time over the other's, each at the better of its two places, with the empty loop",
        "taken off."),
        [*beside(), "", f"Slower by more than 5 in 100, from {LONG:,} bytes and 2 ns on:", "", *listed(slower())])


# The chart

SHADES = ("#c6dbef", "#9ecae1", "#6baed6", "#4292c6", "#2171b5", "#08519c", "#08306b")


def text(x, y, s, size=12, anchor="start", colour="#222"):
    s = s.replace("&", "&amp;").replace("<", "&lt;")
    return f'<text x="{x:.1f}" y="{y:.1f}" font-size="{size}" text-anchor="{anchor}" fill="{colour}">{s}</text>'


def line(x1, y1, x2, y2, colour="#ddd", dash="", width=1):
    return f'<line x1="{x1:.1f}" y1="{y1:.1f}" x2="{x2:.1f}" y2="{y2:.1f}" stroke="{colour}" stroke-width="{width}" stroke-dasharray="{dash}"/>'


BOTTOM = 60 + 22 * len(KINDS)  # of the two upper charts


def ratios(left, title, call, rust):
    """a row a kind, a dot a size, the worse of the two places"""
    top, width, step = 60, 300, 22
    x = lambda r: left + min(r, 1.2) / 1.2 * width
    yield text(left, 30, title, 14)
    for tick in (0, 0.25, 0.5, 0.75, 1.0):
        yield line(x(tick), top - 10, x(tick), BOTTOM)
        yield text(x(tick), BOTTOM + 14, f"{tick:g}", 11, "middle")
    for target in TARGETS:
        if (target.call, target.other, target.measure) == (call, rust, AS_MEASURED):
            yield line(x(target.limit), top - 10, x(target.limit), BOTTOM, "#c33", "4 3")
    for i, k in enumerate(KINDS):
        y = top + step * i + 6
        yield text(left - 8, y + 4, k, 11, "end")
        for j, n in enumerate(SIZES[k]):
            r = max(both((k, n), call, rust, AS_MEASURED))
            shade = SHADES[j * (len(SHADES) - 1) // max(1, len(SIZES[k]) - 1)]
            yield f'<circle cx="{x(r):.1f}" cy="{y}" r="5" fill="{shade}"><title>{k}, {n:,} bytes: {r:.2f}</title></circle>'


LINES = (
    ("LED", "decode+encode", "#e6550d", "6 3", "LED, Rust"),
    ("OUT", "decode+encode", "#756bb1", "6 3", "OUT, Rust"),
    ("LED", "normalise", "#e6550d", "", "LED"),
    ("OUT", "normalise", "#756bb1", "", "OUT"),
    ("MFG", "decode+encode", "#2171b5", "6 3", "MFG, Rust"),
    ("MFG", "normalise", "#2171b5", "", "MFG"),
    ("MFG", "memcpy", "#777", "2 2", "memcpy"),
)


def grows(left, top, width, height):
    x = lambda n: left + log10(n) / 5 * width
    y = lambda t: top + height - log10(max(t, 1)) / 5 * height
    yield text(left, top - 14, "Nanoseconds by bytes: normalise, the Rust's decode and encode (broken), memcpy (dotted)", 14)
    for e in range(6):
        yield line(x(10**e), top, x(10**e), top + height)
        yield line(left, y(10**e), left + width, y(10**e))
        yield text(x(10**e), top + height + 16, f"{10**e:,}", 11, "middle")
        yield text(left - 6, y(10**e) + 4, f"{10**e:,}", 11, "end")
    last = 0.0
    for kind, call, colour, dash, name in LINES:
        points = [(x(n), y(best((kind, n), call))) for n in SIZES[kind]]
        path = " ".join(f"{a:.1f},{b:.1f}" for a, b in points)
        yield f'<polyline points="{path}" fill="none" stroke="{colour}" stroke-width="2" stroke-dasharray="{dash}"/>'
        last = max(points[-1][1] + 4, last + 13)
        yield text(left + width + 8, last, name, 11, colour=colour)


def chart():
    yield f'<svg xmlns="http://www.w3.org/2000/svg" viewBox="0 0 900 {BOTTOM + 394}" font-family="sans-serif">'
    yield f'<rect width="900" height="{BOTTOM + 394}" fill="#fff"/>'
    yield from ratios(110, "check / Rust decode, as measured", "check", "decode")
    yield from ratios(540, "normalise / Rust decode+encode, as measured", "normalise", "decode+encode")
    for i, shade in enumerate(SHADES):
        yield f'<circle cx="{114 + 16 * i}" cy="{BOTTOM + 42}" r="5" fill="{shade}"/>'
    yield text(232, BOTTOM + 46, "from a kind's shortest payload to its longest; broken: the targets that are held as measured", 11)
    yield from grows(110, BOTTOM + 94, 640, 250)
    yield "</svg>"


def said():
    """the last line: what was done, the largest ratios, and whether the targets are met"""
    many = min(len(RUNS[AS_MEASURED][p]) for p in PLACES)
    top = ", ".join([*(f"{SHOWN[call]} {worst(call, other, AS_MEASURED, KEYS)}" for call, other in (*BY_CODE, READ)),
                     *(f"{call} a frame {worst(call, other, AS_MEASURED, FRAMES)}" for call, other in OF_FRAMES),
                     f"words of a text {worst(*OF_TEXTS, AS_MEASURED, TEXTS)}"])
    failed = sum(any(target.missed(target.measure)) for target in TARGETS)
    verdict = f"{failed} of {len(TARGETS)} targets missed" if failed else f"all {len(TARGETS)} targets met"
    return (f"bench: {len(KINDS)} kinds, {len(KEYS)} sizes, {len(CALLS)} calls, {len(FRAMES)} frames, {len(TEXTS)} texts, "
            f"{many} run{'s' if many > 1 else ''} at each of {len(PLACES)} places; largest ratios as measured: {top}; {verdict}")


def written(folder):
    (folder / "PERFORMANCE.md").write_text("\n".join(page()) + "\n", encoding="utf-8")
    (folder / "performance.svg").write_text("\n".join(chart()) + "\n", encoding="utf-8")
    return f"written: {folder}/PERFORMANCE.md and performance.svg"


MISSED = missed()
print("\n".join([*table(), "", *frames(), "", crc_alone(), "", *texts(), "", gained(), stopped(), "", *targets(), "", aimed(), "", *largest(),
                 *(beside_section() if BESIDE else ())]))
for folder in (HERE, *(Path(docs) for docs in sys.argv[2:] if not MISSED)):
    print(written(folder))
for miss in MISSED:
    print(f"target missed: {miss}")
print(said())
sys.exit(1 if MISSED else 0)
