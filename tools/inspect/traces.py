"""What inspect says of frames and of streams, by a plain model, for inputs.py: a line with a frame, and a stream with frames, damaged ones, and
what is between them. Of the kinds that are carried only MFG is put into a frame here."""
import random
import sys
from pathlib import Path

sys.path.insert(0, str(Path(__file__).resolve().parent.parent / "oracle"))
from frames import CRC, FIRST, HEAD, HIGHER, MOST, check, frame, width

MARK = 0xFF
MFG = 0x80
MEGABYTES = (10, 100)  # of random bytes: the seconds that they take are said
ROWS = Path(__file__).resolve().parent.parent / "rows.txt"
SENTENCES = {int(line.split()[0]): line.split(maxsplit=3)[3] for line in ROWS.read_text(encoding="utf-8").splitlines() if line[0] != "#"}


def sides(f):
    return ("reply", "from", 2) if f[1] & 0x80 else ("command", "to", 1)


def refusal(f, known):
    """row and numbers, or None"""
    if len(f) < HEAD + 1:
        return 4, HEAD + 1, len(f)
    if f[0] != FIRST or len(f) > MOST:
        return (20 if f[0] != FIRST else 22), 0, 0
    if (asked := f[2] + 256 * f[3]) != len(f):
        return 6, asked, len(f)
    if f[4] >= HIGHER:
        return 20, 0, 0
    end = len(f) - width(f[4])
    if end < HEAD:
        return 4, HEAD + 2, len(f)
    if f[end:] != check(f[4], f[:end]):
        return 21, 0, 0
    side, _, row = sides(f)
    return None if (side, f[5]) in known else (row, 0, 0)


def refused(row, first=0, second=0):
    return f"  refused, row {row} ({first}, {second}): {SENTENCES[row]}\n"


def read(f, known):
    """what is said of a good frame after its title"""
    side, way, _ = sides(f)
    payload = f[HEAD:-width(f[4])]
    words = f"  {way} address {f[1] % 128}, sequence {f[4] % 4}, {'CRC' if f[4] & CRC else 'sum'}\n"
    words += f"  {side} {f[5]:02X} {known[side, f[5]]}, length {len(payload)}\n"
    if (side, f[5]) != ("command", MFG):
        return words + refused(14)
    return words + f"  oui {payload[:3].hex(' ').upper()}\n  payload:{''.join(f' {b:02X}' for b in payload[3:])}\n"


def line(f, known):
    """what is said of a line with a frame"""
    wrong = refusal(f, known)
    return f"frame, length {len(f)}\n{refused(*wrong) if wrong else read(f, known)}"


def step(s, at, known):
    """a place's refusal or None, whether it can begin a frame, and how many bytes it takes"""
    after = s.find(FIRST, at + 1)
    rest = (len(s) if after < 0 else after) - at
    if s[at] != FIRST:
        return None, False, rest
    needed = s[at + 2] + 256 * s[at + 3] if len(s) - at > HEAD else HEAD + 1
    wrong = (22, 0, 0) if needed > MOST else refusal(s[at:at + needed], known)
    return wrong, True, rest if wrong else needed


def passed(s, begun, at, wrong):
    if begun == at:
        return ""
    marks = s.count(MARK, begun, at)
    damaged = f"damaged frame\n{refused(*wrong)}  " if wrong else ""
    return f"offset {begun}: {damaged}passed over: {marks} mark bytes FF, {at - begun - marks} other bytes\n"


def stream(s, known, bad=0):
    """all that is said of a stream"""
    said, at, begun, held, frames, framed, marks, damaged = [], 0, 0, None, 0, 0, 0, 0
    while at < len(s):
        wrong, is_first, n = step(s, at, known)
        if is_first:
            said.append(passed(s, begun, at, held))
            marks += s.count(MARK, begun, at)
            begun, held = (at, wrong) if wrong else (at + n, None)
            if wrong:
                damaged += 1
            else:
                said.append(f"offset {at}: frame, length {n}\n{read(s[at:at + n], known)}")
                frames, framed = frames + 1, framed + n
        at += n
    marks += s.count(MARK, begun, at)
    return "".join(said) + passed(s, begun, at, held) + (f"bytes {len(s)}: {framed} in {frames} frames, {marks} mark bytes FF, "
                                                         f"{len(s) - framed - marks} other bytes; damaged frames {damaged}, bad lines {bad}\n")


def frames():
    poll, ack, mfg = frame(0, CRC, 0x60), frame(0x80, 1, 0x40), frame(5, 2, MFG, b"\0\6\x8e" + frame(0, CRC, 0x60))
    yield from (poll, ack, mfg, b"", b"\x53", poll[:-1], poll + b"\0", b"\x52" + poll[1:], frame(127, 3, 0x63), frame(0x83, 7, 0x60))
    yield from (frame(0, 8, 0x60), frame(0, 0xFF, 0x60), poll[:6] + poll[7:] + poll[6:7], poll[:2] + b"\7" + poll[3:7])
    yield from (frame(1, 0, MFG, bytes(MOST + n - HEAD - 1)) for n in (0, 1))


def streams():
    """bad and good ones"""
    poll, ack = frame(0, CRC, 0x60), frame(0x80, 1, 0x40)
    inner = b"\0\6\x8e" + poll
    round_it = frame(5, 2, MFG, inner)
    yield from (b"", b"\x53", b"\0", b"\xff", b"\xff" * 100_000, b"\x53" * 100_000, poll, poll + ack, b"\xff\xff" + poll + b"\xff" + ack + b"\xff\0")
    yield from (round_it, round_it[:-1] + b"\0", poll[:-1] + ack, b"\x53" + poll, b"\x53\x53\x53" + poll + b"\x53")
    for n in (0, 1, 6, 7, 8, MOST - 1, MOST, MOST + 1, 65535):
        yield from (frame(0, CRC, 0x60, length=n) + rest for rest in (b"", poll, bytes(2000) + poll, b"\xff" * MOST))
    for n in (MOST, MOST + 1):
        yield b"\xff" + frame(1, 0, MFG, bytes(n - HEAD - 1)) + poll
    yield from (f + poll for f in frames())
    # damaged frames of the greatest length one within another, and across the program's buffers
    yield frame(0, CRC, 0x60, length=MOST) * 3000
    yield (poll + b"\xff" * 1023) * 200
    chance = random.Random(20261127)
    for _ in range(300):
        parts = [chance.choice((poll, ack, round_it, b"\xff\xff", b"\x53", chance.randbytes(chance.randrange(40)))) for _ in range(chance.randrange(60))]
        s = bytearray(b"".join(parts))
        for at in (chance.randrange(len(s)) for _ in range(chance.randrange(4)) if s):
            s[at] ^= 1 << chance.randrange(8)
        yield bytes(s)


def spelled(s, chance):
    """in hex, with blanks, line ends and comments"""
    between = ("", " ", "\n", "\t", "  ", "\r\n", " # 53\n", "\n\n")
    return "".join(f"{b:02x}" + chance.choice(between) for b in s).encode()


def runs(t, known, counts):
    """inspect on all of these; the seconds that each number of megabytes took"""
    lines = list(frames())
    shown = "".join(f"line {n}: {line(f, known)}" for n, f in enumerate(lines, 1))
    good = sum(refusal(f, known) is None and (f[5], f[1] < 128) == (MFG, True) for f in lines)
    t.expect("frames", shown + counts(good, len(lines) - good), text="".join(f"frame {f.hex()}\n" for f in lines).encode())
    chance = random.Random(1)
    for s in streams():
        for text in (s.hex().encode(), s.hex(" ").upper().encode(), spelled(s, chance)):
            t.expect(f"the stream {s[:40].hex()}, {len(s)} bytes", stream(s, known), text=text, args=["--trace"])
    wrong_lines(t, known)
    return dict(of_random_bytes(t, known))


def wrong_lines(t, known):
    """a line that is not hex ends the stream before it, and its rest is passed over"""
    poll = frame(0, CRC, 0x60)
    half = "half a byte, its second hex digit is missing"
    shown = [f"offset 0: damaged frame\n{refused(4, 7, 2)}  passed over: 0 mark bytes FF, 2 other bytes\nline 1, column 8: {half}\n",
             "offset 2: passed over: 0 mark bytes FF, 1 other bytes\nline 2, column 3: not a hex digit\n",
             f"offset 3: frame, length 8\n{read(poll, known)}line 5, column 2: {half}\n",
             "bytes 11: 8 in 1 frames, 0 mark bytes FF, 3 other bytes; damaged frames 1, bad lines 3\n"]
    text = b"53 00 0 08\n12:30 53\n# 53\n" + poll.hex().encode() + b"\n5"
    t.expect("lines that are not hex", "".join(shown), text=text, args=["--trace"])
    # no frame goes on after one
    shown = [f"offset 0: damaged frame\n{refused(4, 7, 4)}  passed over: 0 mark bytes FF, 4 other bytes\nline 1, column 13: not a hex digit\n",
             "offset 4: passed over: 0 mark bytes FF, 4 other bytes\n",
             "bytes 8: 0 in 0 frames, 0 mark bytes FF, 8 other bytes; damaged frames 1, bad lines 1\n"]
    t.expect("a frame with a wrong line in it", "".join(shown), text=b"53 00 08 00 zz 11\n04 60 EB AA", args=["--trace"])


def of_random_bytes(t, known):
    """how many megabytes, and the seconds that they took"""
    for n in MEGABYTES:
        s = random.Random(n).randbytes(1_000_000 * n)
        t.expect(f"{n} MB of random bytes", stream(s, known), text=s.hex(" ", 32).encode(), args=["--trace"])
        yield n, t.seconds
