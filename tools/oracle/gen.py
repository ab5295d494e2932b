#!/usr/bin/env python3
"""Cases for the oracle, one a line: gen.py [SCALE [SEED]]

SCALE multiplies the cases made by chance. The same lines come on every machine for the same two numbers.
"""
import hashlib
import struct
import sys
from pathlib import Path

sys.dont_write_bytecode = True
sys.path.insert(0, str(Path(__file__).resolve().parent.parent))
from frames import frames
from kinds import KINDS, is_tail, span, width
from streams import streams

LIMIT = max(k.most for k in KINDS)  # the longest payload that the calls by code take
TOP = 2**64 - 1
EACH = 10  # payloads of any size are made once more for each so many of the scale; every payload of two bytes from this scale on
SHORT = 1000  # a length below it is short
LENT = 1024  # the most records of a list that the program that compares lends to a list's writer
LED, OUT, TEXT, BIOMATCH = (next(k for k in KINDS if k.name == name) for name in ("LED", "OUT", "TEXT", "BIOMATCH"))


class Chance:
    """xorshift64*"""

    def __init__(self, seed):
        self.s = seed or 1

    def below(self, n):
        s = self.s
        s ^= s >> 12
        s = (s ^ (s << 25)) & TOP
        s ^= s >> 27
        self.s = s
        return ((s * 0x2545F4914F6CDD1D & TOP) >> 11) % n

    def bytes(self, n):
        if n > 64:
            return hashlib.shake_128(self.bytes(8)).digest(n)
        return bytes(self.below(256) for _ in range(n))

    def size(self, n):
        """below n; each number of bits as often as any other"""
        return min(n - 1, self.below(2 << self.below(n.bit_length())))

    def of(self, xs):
        return xs[self.below(len(xs))]


R = Chance(int(sys.argv[2], 0) if len(sys.argv) > 2 else 0x0DD5EED)


def u16(n):
    return struct.pack("<H", n)


def drawn(field, n):
    """a field before a tail of n, or the tail"""
    if span(field):
        low, high = span(field)
        return bytes([low + R.below(high - low + 1)])
    if field in ("len8", "count8"):
        return bytes([n])
    if field in ("len16", "bits16"):
        return u16(n)
    if field == "text":
        return bytes(0x20 + R.below(0x5F) for _ in range(n))
    return R.bytes(n if is_tail(field) else width(field))


def good_list(kind, n):
    p, at = bytearray(R.bytes(kind.step * n)), 0
    for field in kind.fields:
        if span(field):
            low, high = span(field)
            p[at::kind.step] = bytes(low + b % (high - low + 1) for b in p[at::kind.step])
        at += width(field)
    return bytes(p)


def pieces(kind, n):
    """the fields of a good payload with a tail of n bytes, or bits"""
    for at, field in enumerate(kind.fields):
        if at == 0 and n and kind.kept_after is not None:
            yield bytes([kind.kept_after])
        elif field == "tail" and "bits16" in kind.fields:
            yield R.bytes((n + 7) // 8)
        else:
            yield drawn(field, n)


def good(kind, n):
    """a good payload with a tail of n bytes or bits, or a list of n records"""
    return good_list(kind, n) if kind.step > 1 else b"".join(pieces(kind, n))


def apart(kind, n):
    """the fixed fields and the tail of a good payload"""
    parts = list(zip(kind.fields, pieces(kind, n)))
    fixed = b"".join(b for field, b in parts if not is_tail(field) and field not in ("len8", "len16"))
    return fixed, b"".join(b for field, b in parts if is_tail(field))


def longest(kind):
    """the most records, or the most bytes or bits of the tail"""
    if kind.step > 1:
        return kind.most // kind.step
    return 0xFFFF if "bits16" in kind.fields else kind.most - kind.least


EDGES = (0, 1, 2, 3, 4, 5, 6, 7, 8, 9, 10, 0x11, 0x12, 0x1F, 0x20, 0x7E, 0x7F, 0x80, 0xFF)


def spell(b):
    return b if isinstance(b, str) else b.hex().upper() or "-"


def case(kind, payload):
    return f"{kind.side} {kind.code:02X} {spell(payload)}"


def examples(of_frames):
    """those that are about frames and streams of them, or the others"""
    for line in (Path(__file__).parent / "examples.txt").read_text(encoding="utf-8").splitlines():
        if line and not line.startswith("#") and line.startswith(("frame", "checks", "stream")) == of_frames:
            yield line.split(" => ")[0]


def tables():
    for name in ("CommandCode", "ReplyCode", "LedColor", "BioType", "BioFormat", "OutputControlCode", "TextCommand", "NakErrorCode"):
        for b in range(256):
            yield f"table {name} {b:02X}"


def guards():
    for name in ("exact", "least", "positive", "multiple"):
        for n in (0, 1, 2, 4, 14, 255, 65547, 2**32, 2**63, TOP):
            lengths = {0, 1, 2, 3, 4, 13, 14, 15, 28, max(0, n - 1), n, n + 1, min(2 * n, 600)}
            for length in sorted(x for x in lengths if x <= 65548):
                yield f"guard {name} {n} {R.below(256):02X} {f'00*{length}' if length else '-'}"


def damaged(p, least):
    """one byte set to an edge, one bit turned, one byte cut out, one put in"""
    at = R.below(min(len(p), least + 4))
    yield p[:at] + bytes([R.of(EDGES)]) + p[at + 1:]
    at = R.below(len(p))
    yield p[:at] + bytes([p[at] ^ 1 << R.below(8)]) + p[at + 1:]
    yield p[:at] + p[at + 1:]
    yield p[:at] + R.bytes(1) + p[at:]


def payloads(scale):
    for kind in KINDS:
        # every payload of one byte; every length up to two past the least, and within two of the most if it is short
        for b in range(256):
            yield case(kind, bytes([b]))
        near_most = range(kind.most - 2, kind.most + 3) if kind.most < SHORT else ()
        for n in (*range(kind.least + 3), *near_most):
            for p in (bytes(n), R.bytes(n), b"\xff" * n):
                yield case(kind, p)
        # good ones, a byte less, a byte more, and damaged ones
        for n in kind.tried:
            for _ in range(scale):
                p = good(kind, n)
                for q in (p, p[:-1], p + R.bytes(1)):
                    yield case(kind, q)
                for _ in range(3):
                    for q in damaged(p, kind.least):
                        yield case(kind, q)
        # every edge at every place of the fixed part of a short good one
        p = good(kind, kind.tried[:2][-1])
        for at in range(min(len(p), kind.least + 2)):
            for e in EDGES:
                yield case(kind, p[:at] + bytes([e]) + p[at + 1:])


def colours():
    """a colour above 7 in each record of a list, and one after it"""
    for n in (1, 2, 3):
        for k in range(n):
            for at, highest in LED.limits:
                p = bytearray(good(LED, n))
                for place in (LED.step * k + at, len(p) - 1):
                    p[place] = highest + 1 + R.below(0xFF - highest)
                    yield case(LED, bytes(p))


FIRST_KNOWS = 4  # the highest colour that readers of the first generation know


def coloured(n, colours):
    """a list of records whose colours both generations know, but for these: offset, byte"""
    p = bytearray(good(LED, n))
    for at, _ in LED.limits:
        p[at::LED.step] = bytes(b % (FIRST_KNOWS + 1) for b in p[at::LED.step])
    for at, b in colours.items():
        p[at] = b
    return case(LED, bytes(p))


def new_colour(highest):
    return FIRST_KNOWS + 1 + R.below(highest - FIRST_KNOWS)


def generations(scale):
    """colours for the first generation: no new one; one at each place of the first and of the last record; one above the highest behind or before it;
    in a larger run also at places by chance"""
    (first, highest), *_ = LED.limits
    for n in (1, 2, 100):
        yield coloured(n, {})
        last = LED.step * (n - 1)
        places = sorted({start + at for start in (0, last) for at, _ in LED.limits})
        for at in places:
            for b in (FIRST_KNOWS, FIRST_KNOWS + 1, highest, highest + 1, 0xFF):
                yield coloured(n, {at: b})
            for other in (first, places[-1]):
                if other != at:
                    yield coloured(n, {at: new_colour(highest), other: highest + 1 + R.below(0xFF - highest)})
    for _ in range(scale if scale >= EACH else 0):
        n = 1 + R.size(300)
        at, other = (LED.step * R.below(n) + R.of(LED.limits)[0] for _ in range(2))
        yield coloured(n, {})
        yield coloured(n, {at: new_colour(highest)})
        yield coloured(n, {at: new_colour(highest), other: highest + 1 + R.below(0xFF - highest)})


def declared(scale):
    """a length or count, and another number of bytes: nothing, one less, one more, a few more; in a larger run also by chance

    The field asks for nothing, for a few bytes, for so many that a byte of the number changes, and for the most that it can.
    """
    for kind in (k for k in KINDS if k.declared):
        most = 256 ** width(kind.declared) - 1

        def asking(n, got):
            return case(kind, f"{spell(good(kind, n)[:kind.least])}+{R.below(256):02X}*{got}")

        def in_bytes(n):
            return (n + 7) // 8 if kind.declared == "bits16" else n

        for n in (n for n in (0, 1, 2, 7, 8, 9, 254, 255, 256, 257, 0x0102, 0x0201, 0xFF00, 0xFFFE, 0xFFFF) if n <= most):
            tail = in_bytes(n)
            for got in sorted({0, tail - 1, tail + 1, tail + 3} - {-1, tail}):
                line = asking(n, got)
                yield line
                if kind.least + got > LIMIT:
                    yield f"kind {line}"
        for _ in range(scale if scale >= EACH else 0):
            n, other = (R.of((R.below, R.size))(most + 1) for _ in range(2))
            yield asking(n, in_bytes(other))


def by_code():
    """every code byte, with no payload, with a byte, and with one that is too long"""
    for what in ("command", "reply"):
        for b in range(256):
            for p in ("-", "00", f"00*{LIMIT + 1}"):
                yield f"{what} {b:02X} {p}"


def limits():
    # the 65,535 bits of a RAW take 8,192 bytes
    for n in (8191, 8192, 8193):
        yield f"reply 50 0000FFFF+A5*{n}"
    # u16 lengths at their end, and one off
    for what, code, head in (("command", 0x74, "00010132"), ("reply", 0x57, "00010132"), ("command", 0x7C, "01" + "FF" * 8)):
        for field, n in ((65534, 65534), (65535, 65534), (65535, 65535), (65535, 65536)):
            yield f"{what} {code:02X} {head}{u16(field).hex().upper()}+EE*{n}"
    # the longest payload for the calls by code, and a longer one for the calls of a kind, which have no limit on the length
    for kind in KINDS:
        fill = f"{kind.kept_after or 0:02X}"
        longest, longer = case(kind, f"{fill}*{LIMIT}"), case(kind, f"{fill}*{LIMIT + 1}")
        yield from (longest, longer, f"kind {longer}")
    # long lists, and one whose last record is refused
    yield f"command 69 07*{14 * (LIMIT // 14)}"
    yield f"kind command 69 07*{14 * (LIMIT // 14 + 1)}"
    yield f"command 69 07*{14 * 300 - 1}+08"
    yield f"command 68 06*{4 * (LIMIT // 4)}"
    yield f"command 68 06*{4 * 300 - 3}+07+06*2"


WRITTEN = set()


def w(what, code, fixed, tail=b""):
    WRITTEN.add((what, code))
    return f"write {what} {code:02X} {spell(fixed)} {spell(tail)}"


def writes(scale):
    for kind in (LED, OUT):
        for n in (5, 13, 255, 256, 257, 300, LENT - 1, LENT):
            yield w("command", kind.code, good(kind, n))
    for _ in range(4 * scale):
        for n in (0, 1, 2, 3, 4):
            yield w("command", 0x69, good(LED, n))
            yield w("command", 0x68, good(OUT, n))
        for n in (0, 1, 9):
            t = good(TEXT, n)
            yield w("command", 0x6B, t[:5], t[6:])
            yield w("command", 0x6B, t[:5], R.bytes(n))
            b = good(BIOMATCH, n)
            yield w("command", 0x73, b[:4])
            yield w("command", 0x74, b[:4], b[6:])
            yield w("reply", 0x57, b[:4], b[6:])
            yield w("command", 0x7C, R.bytes(9), R.bytes(n))
            yield w("command", 0x80, R.bytes(3), R.bytes(n))
            yield w("reply", 0xB1, R.bytes(1), R.bytes(n))
            yield w("reply", 0x41, bytes([R.below(10)]), R.bytes(n))
            yield w("reply", 0x58, R.bytes(3))
            yield w("reply", 0x51, R.bytes(2) + bytes([n]), R.bytes(n))
            yield w("reply", 0x51, R.bytes(2) + bytes([R.below(3)]), R.bytes(n))
            yield w("reply", 0x50, R.bytes(2) + u16(max(0, 8 * n - R.below(8))), R.bytes(n))
            yield w("reply", 0x50, R.bytes(2) + u16(R.below(24)), R.bytes(n))


def writes_at_limits():
    for b in range(256):
        yield w("command", 0x6B, b"\0\1\0\1\1", bytes([b]))
    for n in (254, 255, 256, 257):
        yield w("command", 0x6B, b"\0\1\0\1\1", f"41*{n}")
        yield w("command", 0x6B, b"\0\1\0\1\1", f"41*{n}+1F")
    for n in (65534, 65535, 65536):
        yield w("command", 0x74, b"\0\1\1\x32", f"EE*{n}")
        yield w("reply", 0x57, b"\0\1\1\x32", f"EE*{n}")
        yield w("command", 0x7C, b"\1" + b"\xff" * 8, f"EE*{n}")
        yield w("command", 0x80, b"\0\6\x8e", f"EE*{n}")
        yield w("reply", 0x41, b"\3", f"EE*{n}")
    for n in (8191, 8192, 8193):
        yield w("reply", 0x50, b"\0\0\xff\xff", f"A5*{n}")


def other_writes(scale):
    """kinds that no write above names: the fields and the tail of a good payload, a tail that is a byte longer or shorter, and every edge at every
    place of the fields"""
    for kind in [k for k in KINDS if (k.side, k.code) not in WRITTEN]:
        for n in 4 * scale * kind.tried:
            fixed, tail = apart(kind, n)
            yield w(kind.side, kind.code, fixed, tail)
            if is_tail(kind.fields[-1]):
                yield w(kind.side, kind.code, fixed, tail + R.bytes(1))
                yield w(kind.side, kind.code, fixed, tail[1:])
        fixed, tail = apart(kind, kind.tried[:2][-1])
        for at in range(len(fixed)):
            for e in EDGES:
                yield w(kind.side, kind.code, fixed[:at] + bytes([e]) + fixed[at + 1:], tail)


def counts():
    """a count of one byte that is the tail's, one less and one more, modulo 256"""
    for kind in (k for k in KINDS if "count8" in k.fields):
        for n in (0, 1, 2, 254, 255, 256, 257):
            for count in (n - 1, n, n + 1):
                yield w(kind.side, kind.code, bytes(kind.least - 1) + bytes([count % 256]), f"41*{n}")


def every_short_one(scale):
    """in a large run every payload of two bytes, and every record of kinds that have no other"""
    for kind in KINDS if scale >= EACH else ():
        for p in (bytes([a, b]) for a in range(256) for b in range(256)):
            yield case(kind, p)
            if kind.most == 2:
                yield w(kind.side, kind.code, p)


def of_any_size(scale):
    """lists and tails of any size up to the longest, all bytes by chance: read, damaged and written; records of lists, walkers, bits

    In the first turn all but one payload of each kind with a tail are drawn by `size`, so that the stored vectors stay short.
    """
    for turn in range(1 + scale // EACH):
        ways = (R.below, R.size) if turn else (R.size,)
        for kind in (k for k in KINDS if k.least < k.most):
            most = longest(kind)
            if turn or kind.step == 1:
                yield case(kind, good(kind, 1 + R.below(most)))
            p = good(kind, 1 + R.of(ways)(most))
            for q in (p, *damaged(p, kind.least)):
                yield case(kind, q)
            if kind.step > 1:
                yield f"record {kind.code:02X} {R.below(len(p) // kind.step + 1)} {spell(p)}"
                yield w(kind.side, kind.code, good(kind, R.size(LENT + 1)))
            else:
                yield w(kind.side, kind.code, *apart(kind, R.of(ways)(most + 1)))
        p = good(LED, 1 + R.of(ways)(longest(LED)))
        yield f"walk {spell(p)}"
        yield f"walk {R.below(len(p))} {spell(p)}"
        n = R.of(ways)(0x10000)
        yield f"bits {n} {spell(R.bytes((n + R.below(16)) // 8))}"


def bits():
    for n in range(34):
        for k in range(5):
            yield f"bits {n} {spell(R.bytes(k))}"
    for n, k in ((255, 32), (256, 32), (1000, 125), (1001, 125), (20001, 2501)):
        yield f"bits {n} {spell(R.bytes(k))}"
    for k in (8191, 8192, 8193):
        yield f"bits 65535 FF*{k}"


def records(scale):
    for kind in (LED, OUT):
        for n in (0, 1, 2, 3, 4, 9):
            for _ in range(scale):
                p = good(kind, n)
                for k in sorted({0, 1, max(0, n - 1), n, n + 1, 255, 2**32, TOP - 1, TOP}):
                    yield f"record {kind.code:02X} {k} {spell(p)}"
                for q in (p[:-1], p + b"\0", p + R.bytes(kind.step)):
                    yield f"record {kind.code:02X} {R.below(n + 1)} {spell(q)}"
        for b in range(256):
            yield f"record {kind.code:02X} 1 {spell(good(kind, 1) + bytes([0, b]) + bytes([b] * (kind.step - 2)))}"


def walks(scale):
    for n in (0, 1, 2, 3, 9):
        for _ in range(scale):
            p = good(LED, n)
            yield f"walk {spell(p)}"
            yield f"walk {spell(R.bytes(14 * n + 1 + R.below(13)))}"
            yield f"walk {spell(R.bytes(14 * n))}"
            for q in (p, R.bytes(14 * n + 5)):
                places = {0, 1, 13, 14, 15, len(q) - 28, len(q) - 15, len(q) - 14, len(q) - 13, len(q) - 1, len(q), len(q) + 1}
                for at in sorted(x for x in places if x >= 0) + [2**32, 2**63, TOP - 13, TOP - 1, TOP]:
                    yield f"walk {at} {spell(q)}"


def places(scale):
    """the single OUT record at a place, and a record of either list written at a place"""
    for n in (0, 1, 2, 9):
        for _ in range(scale):
            for q in (good(OUT, n), R.bytes(4 * n + 3)):
                spots = {0, 1, 3, 4, 5, len(q) - 5, len(q) - 4, len(q) - 3, len(q) - 1, len(q), len(q) + 1}
                for at in sorted(x for x in spots if x >= 0) + [2**32, TOP - 3, TOP]:
                    yield f"read-at {at} {spell(q)}"
    for kind in (LED, OUT):
        width = kind.step
        for at in (0, 1, width, 100, 2**32, TOP - width, TOP - width + 1, TOP):
            for room in sorted({0, 1, width - 1, width, width + 1} | {at + width + d for d in (-1, 0, 1, 5) if at < 200}):
                yield f"write-at {kind.code:02X} {at} {room} {spell(good(kind, 1))}"


NOT_PRINTABLE = (0x1F, 0x7F, 0x80, 0xFF, 0x00)
BUT_FOR_TOP_BIT = (0xA0, 0xFE)  # printable without it


def texts(scale):
    """a text with one byte that is not printable, at each place; in a large run every byte at every place of texts up to 24 bytes

    The other bytes are all spaces or all tildes, the two ends of what is printable. No text is drawn by chance.
    """
    wanted = [(n, NOT_PRINTABLE + BUT_FOR_TOP_BIT) for n in range(41)] + [(n, NOT_PRINTABLE) for n in range(247, 256)]
    if scale >= EACH:
        wanted += [(n, range(256)) for n in range(1, 25)]
    for n, others in wanted:
        s = bytes([(0x20, 0x7E)[n % 2]]) * n
        for t in (s, *(s[:at] + bytes([b]) + s[at + 1:] for at in range(n) for b in others)):
            yield case(TEXT, bytes([0, 1, 0, 1, 1, n]) + t)


def cases(scale):
    yield from examples(of_frames=False)
    yield from tables()
    yield from guards()
    yield from by_code()
    yield from payloads(scale)
    yield from colours()
    yield from limits()
    yield from writes(scale)
    yield from writes_at_limits()
    yield from other_writes(scale)
    yield from counts()
    yield from every_short_one(scale)
    yield from of_any_size(scale)
    yield from bits()
    yield from records(scale)
    yield from walks(scale)
    yield from places(scale)
    yield from examples(of_frames=True)
    yield from (case for case, _ in frames())
    yield from texts(scale)
    yield from generations(scale)
    yield from declared(scale)
    yield from (case for case, _ in streams())


for line in dict.fromkeys(cases(int(sys.argv[1]) if len(sys.argv) > 1 else 1)):
    print(line)
