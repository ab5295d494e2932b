#!/usr/bin/env python3
"""Runs inspect on inputs of every sort: inputs.py PROGRAM

Bad lines and bad files; every code byte of both sides, with the name that its code table has (crates/codes/specs); payloads with the words
that they have to give; lengths and counts that do not fit; every byte as a digit of a keypad; payloads of the greatest lengths; frames and streams,
good and bad ones (traces.py); and, also for its speed, the lines of the sample many times over, and random bytes as a stream. Of each run all that
inspect says, on both outputs, and its exit status are compared. inspect says on standard error what is wrong with a file, and ends with status 0
whatever it was given. Exits with 1 if something differs.
"""
import os
import re
import subprocess
import sys
import tempfile
import time
from pathlib import Path

sys.dont_write_bytecode = True
top = Path(__file__).resolve().parent.parent.parent
sys.path.insert(0, str(top / "tools"))
import names
import traces
from kinds import KINDS, width

MOST_SECONDS = 60
ENDED = 0
GOOD = "reply B1 05"
GOOD_SHOWN = ": reply B1 XRD, length 1\n  mode 5\n  payload:\n"


def counts(read=0, refused=0, bad=0):
    return f"read {read}, refused {refused}, bad lines {bad}\n"


def differing(got, wanted):
    """where two texts differ first, and what they have from there on"""
    if isinstance(got, str) and isinstance(wanted, str):
        at = len(os.path.commonprefix([got, wanted]))
        return f"said   {got[at:at + 80]!r}, from character {at} on\n    wanted {wanted[at:at + 80]!r}"
    return f"said   {got!r}\n    wanted {wanted!r}"


class Trials:
    def __init__(self, program):
        self.program, self.runs, self.failures, self.seconds = program, 0, 0, 0.0

    def inspect(self, text=b"", args=()):
        """standard output, standard error and exit status, which is below 0 for a signal"""
        start = time.monotonic()
        try:
            ran = subprocess.run([self.program, *args], input=text, capture_output=True, timeout=MOST_SECONDS)
        except subprocess.TimeoutExpired:
            return "", "", f"none after {MOST_SECONDS} s"
        self.seconds = time.monotonic() - start
        return ran.stdout.decode("ascii", "backslashreplace"), ran.stderr.decode("ascii", "backslashreplace"), ran.returncode

    def expect(self, what, out, err="", status=ENDED, text=b"", args=()):
        """One run."""
        said, complained, ended = self.inspect(text, args)
        self.runs += 1
        wrong = [f"  {name}:\n    {differing(got, wanted)}" for name, got, wanted in
                 (("output", said, out), ("standard error", complained, err), ("exit status", ended, status)) if got != wanted]
        if wrong:
            self.failures += 1
            print("\n".join([f"{what}:", *wrong]))


def bad_lines():
    """A bad line, and what inspect has to say of it."""
    word = "column 1: the line has to begin with command, reply or frame, not with"
    code = "the code byte has to have two hex digits"
    half = "half a byte, its second hex digit is missing"
    return [
        (b"commands 69", f"{word} commands"),
        (b"COMMAND 69", f"{word} COMMAND"),
        (b"xcommand 69", f"{word} xcommand"),
        (b"replycommand 69", f"{word} replycommand"),
        (b"\0command 69", f"{word} .command"),
        (b"\0reply 69", f"{word} .reply"),
        (b"comm\0and 69", f"{word} comm.and"),
        (b"69 00", f"{word} 69"),
        (b"comm", f"{word} comm"),
        (b"command#69", f"{word} command#69"),
        (b"c" * 20 + b" 69", f"{word} " + "c" * 20),
        (b"c" * 21 + b" 69", f"{word} " + "c" * 20 + " (cut)"),
        (b"c" * 30 + b" 69", f"{word} " + "c" * 20 + " (cut)"),
        (b" \t69", f"{word} 69".replace("column 1", "column 3")),
        (b"command", "column 8: no code byte after the word"),
        (b"reply  # 50", "column 8: no code byte after the word"),
        (b"command 6", f"column 10: {code}"),
        (b"command 690 00", f"column 11: {code}"),
        (b"command 6g", f"column 10: {code}"),
        (b"command 69#", f"column 11: {code}"),
        (b"command 69 0", f"column 13: {half}"),
        (b"command 69 00 0 0", f"column 16: {half}"),
        (b"command 69 0x00", "column 13: not a hex digit"),
        (b"command 69 00,00", "column 14: not a hex digit"),
        (b"command 69 \xff", "column 12: not a hex digit"),
        (b"command 80 " + b"00" * 65548, "column 131107: more than 65,547 bytes"),
        (b"frame 53 0", f"column 11: {half}"),
        (b"frame " + b"00" * 65548, "column 131102: more than 65,547 bytes"),
        (b"frames 53", f"{word} frames"),
    ]


def help_text():
    """what inspect prints, by its source"""
    literal = re.search(r'"(usage: .*?)"', (top / "crates/inspect_run/src/lib.rt").read_text(encoding="utf-8"), re.S)[1]
    return re.sub(r"\\\n\s*", "", literal).replace("\\n", "\n")


def lines_and_files(t):
    for text, message in bad_lines():
        # a good line after a bad one is still shown
        t.expect(text[:40], f"line 1, {message}\nline 2{GOOD_SHOWN}{counts(read=1, bad=1)}", text=text + f"\n{GOOD}\n".encode())
    empty = "no payload and no frame in the input\n"
    with tempfile.TemporaryDirectory() as folder:
        name = folder + "/lines"
        Path(name).write_bytes(GOOD.encode())
        t.expect("a file without a last line end", f"line 1{GOOD_SHOWN}{counts(read=1)}", args=[name])
        Path(name).write_bytes(b"")
        t.expect("an empty file", empty, args=[name])
        t.expect("a folder", empty, "inspect: cannot read: Is a directory\n", args=[folder])
        for trace in ([], ["--trace"]):
            t.expect("a missing file", "", f"inspect: cannot open {name}0: No such file or directory\n", args=[*trace, name + "0"])
        nothing = "bytes 0: 0 in 0 frames, 0 mark bytes FF, 0 other bytes; damaged frames 0, bad lines 0\n"
        t.expect("a folder as a stream", nothing, "inspect: cannot read: Is a directory\n", args=["--trace", folder])
        Path(name).write_bytes(b"ff")
        t.expect("a stream in a file", "offset 0: passed over: 1 mark bytes FF, 0 other bytes\n" + nothing.replace("bytes 0: ", "bytes 1: ").replace("0 mark", "1 mark"),
                 args=["--trace", name])
    t.expect("a name that is too long", "", "inspect: bad file name: File name too long\n", args=["x" * 5000])
    for args in (["a", "b"], ["--trace", "a", "b"], ["a", "--trace"], ["--help", "a"]):
        t.expect(f"arguments {args}", "", "inspect: one file at most; inspect --help says more\n", args=args)
    t.expect("comments and blank lines", empty, text=b"# x\n\n \t\r\n   # y\n")
    t.expect("help", help_text(), args=["--help"])
    raw = "line 1: reply 50 RAW, length 8\n  reader 0, format_code 0, bit_count 26\n  bits: 00010010001101000101011010\n" + counts(read=1)
    for text in (b"reply 50 00 00 1A 00 12 34 56 80\n", b"reply 50 00001a0012345680", b"\treply\t50\t00001A00 12345680\r\n",
                 b"  reply 50  0000 1A00123456 80 # tag"):
        t.expect(text, raw, text=text)


def code_names():
    """{(side, code byte): name in capitals}, from the definitions of the code tables"""
    text = names.source(top / "crates/codes/src/lib.rt")
    found = {}
    for side, enum, how_many in (("command", "CommandCode", 26), ("reply", "ReplyCode", 25)):
        table = [(name, byte) for name, byte in names.definition(top / "crates/codes", text, enum)[0] if name != names.OTHER]
        found |= {(side, int(byte, 16)): name.upper() for name, byte in table}
        if sum(s == side for s, _ in found) != how_many:
            sys.exit(f"crates/codes/specs does not have the {how_many} codes of {enum}")
    return found


def refusal_of_nothing(side, code, known):
    """what is said of an empty payload"""
    kind = next((k for k in KINDS if (k.side, k.code) == (side, code)), None)
    if (side, code) not in known:
        return f"row {1 if side == 'command' else 2} (0, 0): {side} byte in no table"
    if kind is None:
        return "row 14 (0, 0): code known, payload not carried"
    if kind.step > 1:
        return f"row 5 ({kind.step}, 0): empty or not a multiple of the record length (record length, got)"
    if kind.least == kind.most:
        return f"row 3 ({kind.least}, 0): not the exact length (expected, got)"
    return f"row 4 ({kind.least}, 0): below the least length (least, got)"


def every_code(t):
    known = code_names()
    codes = [(side, code) for side in ("command", "reply") for code in range(256)]
    shown = ""
    for number, (side, code) in enumerate(codes, 1):
        name = f" {known[side, code]}" if (side, code) in known else ""
        shown += f"line {number}: {side} {code:02X}{name}, length 0\n  refused, {refusal_of_nothing(side, code, known)}\n"
    t.expect("every code", shown + counts(refused=len(codes)), text="".join(f"{side} {code:02X}\n" for side, code in codes).encode())
    return len(codes)


def payloads_in_words():
    """A payload, its length and what inspect has to show of it: other values than the sample's."""
    return [
        ("reply 53 FE 05 30 39 7F 38 0D", "KEYPAD, length 7", "reader 254, digit_count 5", "digits: 30 39 7F 38 0D", "as text: 09<clear>8<enter>"),
        # what is typed is not taken for a name
        ("reply 53 00 07 3C 63 6C 65 61 72 3E", "KEYPAD, length 9", "reader 0, digit_count 7", "digits: 3C 63 6C 65 61 72 3E", "as text: <3C>clear>"),
        ("command 6E 7F 78 56 34 12", "COMSET, length 5", "address 127, baud 305419896"),
        ("reply 54 80 FF FF FF FF", "COM, length 5", "address 128, baud 4294967295"),
        ("reply 45 1A 2B 3C 4D 5E 6F 70 81 02 93 A4 B5", "PDID, length 12",
         "oui 1A 2B 3C, model 77, version 94, serial 42037359 (0x0281706F), firmware 147.164.181"),
        ("reply 45 000000 0000 00000000 000000", "PDID, length 12", "oui 00 00 00, model 0, version 0, serial 0 (0x00000000), firmware 0.0.0"),
        ("reply 45 FFFFFF FFFF FFFFFFFF FFFFFF", "PDID, length 12",
         "oui FF FF FF, model 255, version 255, serial 4294967295 (0xFFFFFFFF), firmware 255.255.255"),
        ("reply 48 01 01", "LSTATR, length 2", "tamper 1 tamper, power 1 power failure"),
        ("reply 48 00 00", "LSTATR, length 2", "tamper 0 normal, power 0 normal"),
        ("reply 48 03 02", "LSTATR, length 2", "tamper 3, power 2"),
        ("command 7B FE FF", "ACURXSIZE, length 2", "max_size 65534 bytes"),
        ("command A7 01 02", "KEEPACTIVE, length 2", "duration_ms 513"),
        # strict for the second generation of readers, and for the first where it says something else
        ("command 69 01 02 00 00 00 04 04 00 00 00 00 00 04 04", "LED, length 14", "record 0 at offset 0: reader 1, led 2",
         "  temporary: control 0, on_time 0, off_time 0, on_color 4 Blue, off_color 4 Blue, timer 0",
         "  permanent: control 0, on_time 0, off_time 0, on_color 4 Blue, off_color 4 Blue"),
        ("command 69 00 00 00 00 00 00 00 00 00 00 00 00 06 07", "LED, length 14", "record 0 at offset 0: reader 0, led 0",
         "  temporary: control 0, on_time 0, off_time 0, on_color 0 Black, off_color 0 Black, timer 0",
         "  permanent: control 0, on_time 0, off_time 0, on_color 6 Cyan, off_color 7 White",
         "strict, first generation: refused, row 18 (12, 6): colour that the first generation does not know (offset, byte)"),
        ("command 69 00 00 00 00 00 05 00 00 00 00 00 00 00 09", "LED, length 14", "record 0 at offset 0: reader 0, led 0",
         "  temporary: control 0, on_time 0, off_time 0, on_color 5 Magenta, off_color 0 Black, timer 0",
         "  permanent: control 0, on_time 0, off_time 0, on_color 0 Black, off_color 0 Black",
         "strict: refused, row 17 (13, 9): byte that reading would fold (offset, byte)",
         "normalised: 00 00 00 00 00 05 00 00 00 00 00 00 00 00"),
    ]


def in_words(t):
    shown = ""
    for number, (line, title, *words) in enumerate(payloads_in_words(), 1):
        side, code, *_ = line.split()
        shown += f"line {number}: {side} {code} {title}\n" + "".join(f"  {each}\n" for each in words)
    lines = [line for line, *_ in payloads_in_words()]
    t.expect("payloads in words", shown + counts(read=len(lines)), text="\n".join(lines).encode())


def other_length(asked, got):
    """what is said of a payload whose length or count does not fit"""
    return f"  refused, row 6 ({asked}, {got}): declared length or count is not the payload's (asked for, got)\n"


def declared(t):
    """Of each kind with a length or count: no tail asked for, and a byte there; the longest, and nothing there."""
    kinds = [k for k in KINDS if k.declared]
    lines, shown = [], ""
    for kind in kinds:
        at = sum(map(width, kind.fields[:kind.fields.index(kind.declared)]))
        wide = width(kind.declared)
        most = bytes(at) + b"\xff" * wide + bytes(kind.least - at - wide)
        for p, asked in ((bytes(kind.least + 1), kind.least), (most, kind.most)):
            lines.append(f"{kind.side} {kind.code:02X} {p.hex()}")
            shown += f"line {len(lines)}: {kind.side} {kind.code:02X} {kind.name}, length {len(p)}\n{other_length(asked, len(p))}"
    t.expect("declared lengths", shown + counts(refused=len(lines)), text="\n".join(lines).encode())


def key(b):
    """a byte that a keypad sent"""
    if b in (0x0D, 0x7F):
        return "<enter>" if b == 0x0D else "<clear>"
    return chr(b) if 0x20 <= b <= 0x7E and b != ord("<") else f"<{b:02X}>"


def every_key(t):
    """All bytes as digits, in two payloads of the greatest length."""
    for keys in (range(255), range(255, 0, -1)):
        wanted = f"digits:{''.join(f' {b:02X}' for b in keys)}\n  as text: {''.join(map(key, keys))}\n"
        t.expect("the most digits", f"line 1: reply 53 KEYPAD, length 257\n  reader 2, digit_count 255\n  {wanted}{counts(read=1)}",
                 text=b"reply 53 02FF" + bytes(keys).hex().encode())
    t.expect("more digits than a count can have", f"line 1: reply 53 KEYPAD, length 258\n{other_length(257, 258)}{counts(refused=1)}",
             text=b"reply 53 02FF" + b"30" * 256)


def long_payloads(t):
    longest = "line 1: command 80 MFG, length 65546\n  oui 00 00 00\n  payload:" + " 00" * 65543 + "\n"
    longer = "line 2: command 80 MFG, length 65547\n  refused, row 28 (65546, 65547): payload too long (longest, got)\n"
    t.expect("the longest payload, and a longer one", longest + longer + counts(read=1, refused=1),
             text=b"command 80 " + b"00" * 65546 + b"\ncommand 80 " + b"00 " * 65547)
    outputs = "".join(f"  record {k} at offset {4 * k}: output 3, code 5 TemporaryOnResume, timer 10\n" for k in range(16386))
    t.expect("the longest list", f"line 1: command 68 OUT, length 65544\n{outputs}{counts(read=1)}", text=b"command 68 " + b"03050A00" * 16386)
    bits = ("10100101" * 8192)[:65535]
    t.expect("the most bits", f"line 1: reply 50 RAW, length 8196\n  reader 0, format_code 0, bit_count 65535\n  bits: {bits}\n{counts(read=1)}",
             text=b"reply 50 0000FFFF" + b"A5" * 8192)


def many_lines(t):
    """The sample's lines many times over: how many, and how many of them in a second."""
    lines = (top / "crates/inspect/stdin").read_bytes().splitlines()
    shown = re.findall(r"^line (\d+)([:,].*\n(?:  .*\n)*)", (top / "crates/inspect/stdout").read_text(encoding="ascii"), re.M)
    times = 300000 // len(shown)
    text = b"".join(lines[int(number) - 1] + b"\n" for number, _ in shown) * times
    said = [words for _, words in shown] * times
    bad = sum(words.startswith(",") for words in said)
    refused = sum("\n  refused, " in words for words in said)
    wanted = "".join(f"line {number}{words}" for number, words in enumerate(said, 1)) + counts(len(said) - bad - refused, refused, bad)
    start = time.monotonic()
    t.expect("many lines", wanted, text=text)
    return len(said), len(said) / (time.monotonic() - start)


def main():
    if not Path(sys.argv[1]).is_file():
        sys.exit(f"no program {sys.argv[1]}: make run builds it")
    t = Trials(sys.argv[1])
    lines_and_files(t)
    codes = every_code(t)
    in_words(t)
    declared(t)
    every_key(t)
    long_payloads(t)
    took = traces.runs(t, code_names(), counts)
    lines, speed = many_lines(t)
    streams = ", ".join(f"{n} MB in {seconds:.2f} s" for n, seconds in took.items())
    print(f"inputs: {t.runs} runs of inspect, {codes} codes and {lines} short lines among them ({speed:,.0f} lines a second), and streams of random "
          f"bytes ({streams}): {t.failures} differ")
    sys.exit(1 if t.failures else 0)


main()
