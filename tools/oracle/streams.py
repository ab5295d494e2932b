#!/usr/bin/env python3
"""Streams of a line for gen.py, the same on every run. As a program: with their answers, as `CASE => WORDS`

A stream is made of parts. The step of each is stated, without a reader: a good frame is read, a fault that was put in is refused, bytes that cannot
begin a frame are passed over, and a frame that is waited for is the last step.
"""
from types import SimpleNamespace

from frames import COMMAND, CRC, EACH, HEAD, HIGHER, MOST, REPLY, frame, head, level, of_any_value, refused, said, spell, width, with_bit

FIRST = b"\x53"
MARK = b"\xff"  # what a line has where nobody sends


def part(step, b, words=""):
    """{n} in the words is how many bytes belong to the step, {rest} how many there are from it on"""
    return SimpleNamespace(step=step, bytes=b, words=words)


def joined(parts):
    return b"".join(p.bytes for p in parts)


def good(side, control, payload=b"", address=1):
    """a frame that is read"""
    return part("read", frame(side.top | address, control, side.code, payload), f"read {{n}} {said(side.top | address, control, side.code)}")


def longest(side, control):
    return part("read", level(side.top, control, side.code, MOST), f"read {{n}} {said(side.top, control, side.code)}")


def damaged(f, words):
    """what begins like a frame, with its refusal"""
    assert f.startswith(FIRST) and f.count(FIRST) == 1
    return part("damaged", f, f"damaged {{n}} {words}")


def too_long(side, control):
    return damaged(level(side.top, control, side.code, MOST + 1), refused(22))


def other(b):
    assert b and FIRST not in b
    return part("other", b, "other {n}")


def steps(parts):
    """the words of each; other bytes belong to the step before them, unless that is a frame that is read"""
    sizes, rest = [], len(joined(parts))
    for p in parts:
        if p.step == "other" and sizes and sizes[-1][0].step != "read":
            sizes[-1][1] += len(p.bytes)
        else:
            sizes.append([p, len(p.bytes), rest])
        rest -= len(p.bytes)
    return [p.words.format(n=n, rest=rest) for p, n, rest in sizes]


def stream(ended, *parts):
    return f"stream {ended} {spell(joined(parts))}", " ".join((*steps(parts), "end"))


def either(*parts):
    """ended or not"""
    return (stream(ended, *parts) for ended in (0, 1))


def begun(f, needed, before=(), behind=()):
    """the beginning of a frame that needs so many bytes, 7 while that cannot be said: it is waited for, whatever is behind it, or refused"""
    yield stream(0, *before, part("more", f + joined(behind), f"more {needed}"))
    yield stream(1, *before, damaged(f, refused(4, 0, 7, "{rest}") if needed == 7 else refused(6, 0, needed, "{rest}")), *behind)


def without_frames():
    yield from (("stream 0 -", "more 7 end"), ("stream 1 -", "more 7 end"))
    for b in (b"\0", b"\x52", b"\x54", b"\xd3", MARK):
        yield from either(other(b))
    for n in (2, 7, MOST, MOST + 1, 4000):
        yield from either(other(MARK * n))
    yield from either(other(bytes(b for b in range(256) if b != FIRST[0])))


def good_ones():
    for side, crc in EACH:
        one = good(side, crc)
        yield from either(one)
        yield from either(one, one)
        yield from either(one, good(side, crc | 3, of_any_value(60)), good(COMMAND, 0), good(REPLY, CRC | 2, b"\1"))
        for n in (1, 6, 70):
            yield from either(other(MARK * n), one, other(MARK * n), one, other(MARK * n))
        yield from either(other(b"\0\1\2\xff" + bytes(9)), one, other(b"\x54\x52"), one)
        yield from either(longest(side, crc))
        yield from either(one, longest(side, crc))
    yield from either(longest(COMMAND, CRC), good(REPLY, 0))


def beginnings():
    """cut at every length, alone and behind a good frame"""
    for side, crc in EACH:
        f = frame(side.top | 1, crc, side.code, b"\x12\x34\0\xff")
        for n in range(1, len(f)):
            needed = 7 if n < 7 else len(f)
            yield from begun(f[:n], needed)
            yield from begun(f[:n], needed, before=(good(side, crc), other(MARK)))
        yield from begun(longest(side, crc).bytes[:HEAD], 7)
        for n in (HEAD + 1, HEAD + 2, MOST - 1):
            yield from begun(longest(side, crc).bytes[:n], MOST)


def faults(side, crc):
    """frames that are refused whatever is behind them"""
    for n in range(HEAD + 1):
        yield damaged(frame(side.top | 1, crc, side.code, b"\1\2", length=n), refused(4, 0, 7, n))
    yield damaged(head(side.top | 1, CRC | 2, side.code, 7) + b"\0", refused(4, 0, 8, 7))
    for control in (HIGHER, 0x80, 0xF8):
        yield damaged(frame(side.top | 1, crc | control, side.code), refused(20))
    for payload in (b"", b"\x12\x34"):
        f = frame(side.top | 1, crc, side.code, payload)
        yield from (damaged(with_bit(f, at), refused(21)) for at in (1, len(f) - width(crc), len(f) - 1))
    for n in (MOST + 1, 2048, 0xFFFF):
        yield damaged(frame(side.top | 1, crc, side.code, b"\1\2", length=n), refused(22))
    yield damaged(frame(side.top | 1, crc, side.unknown, b"\7"), refused(side.row, side.unknown))


def damaged_ones():
    """alone, and before a good frame; all of them in one stream, with marks behind each"""
    for side, crc in EACH:
        one = good(side, crc)
        every = tuple(faults(side, crc))
        for fault in every:
            yield from either(fault)
            yield from either(fault, one)
        yield from either(one, *(p for fault in every for p in (fault, other(MARK * 2))), one)
        yield from either(too_long(side, crc))
        yield from either(one, too_long(side, crc))
        # a length that takes in what follows: too few bytes, as many, and more
        for n in (20, 1000, MOST):
            f = head(side.top | 1, crc, side.code, n) + b"\0"
            yield from begun(f, n)
            yield from begun(f, n, behind=(one,))
        yield from either(damaged(head(side.top | 1, crc, side.code, 20) + b"\0", refused(21)), one, one)
    yield from either(too_long(REPLY, CRC), good(COMMAND, 0))


def frames_in_frames():
    """a frame in the payload of one that is read, of one that is refused, and of one that is cut off"""
    for side, crc in EACH:
        inner = good(side, crc)
        payload = inner.bytes + b"\1" + inner.bytes
        inside = (inner, other(b"\1"), inner)
        yield from either(good(side, crc, payload), inner)
        outer = frame(side.top | 1, crc | 1, side.code, payload)
        front, check = outer[:HEAD], other(outer[-width(crc):-1] + bytes([outer[-1] ^ 1]))
        yield from either(damaged(front, refused(21)), *inside, check)
        yield from either(damaged(with_bit(front, 4, 3), refused(20)), *inside, check)
        yield from either(damaged(with_bit(front, 3, 7), refused(22)), *inside, check)
        yield from begun(front, len(outer), behind=inside)


def first_bytes():
    """the first byte of a frame as the last byte, alone, and once or more before a frame"""
    yield from begun(FIRST, 7)
    yield from begun(FIRST, 7, before=(other(MARK),))
    for side, crc in EACH:
        one = good(side, crc)
        yield from begun(FIRST, 7, before=(one,))
        yield from begun(FIRST, 7, before=(damaged(with_bit(one.bytes, len(one.bytes) - 1), refused(21)),))
        yield from either(damaged(FIRST, refused(22)), one)
    # 53 53 00: the length field says 83, and the byte behind it, the low byte of the frame's length, is the control byte
    for crc, words in ((0, refused(21)), (CRC, refused(20))):
        behind = (damaged(FIRST, refused(22)), good(COMMAND, crc, address=0))
        yield from begun(FIRST, 83, behind=behind)
        yield from either(damaged(FIRST, words), *behind, other(MARK * 100))
    # while seven bytes are there the length field is 5353
    before = (damaged(FIRST, refused(22)),) * 14
    yield from begun(FIRST, 7, before, behind=(damaged(FIRST, refused(4, 0, 7, "{rest}")),) * 5)


def streams():
    """cases, each with the words of its answer"""
    yield from without_frames()
    yield from good_ones()
    yield from beginnings()
    yield from damaged_ones()
    yield from frames_in_frames()
    yield from first_bytes()


if __name__ == "__main__":
    for case, words in dict.fromkeys(streams()):
        print(f"{case} => {words}")
