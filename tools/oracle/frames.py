#!/usr/bin/env python3
"""Frames for gen.py, the same on every run. As a program: those whose answer is stated here, as `CASE => WORDS`

The CRC is that of Python's binascii, so that an implementation that is not the model's says which frames are right. The answers are stated from
R102 of docs/REQUIREMENTS.md, without a reader: for a good frame, for a fault that was put in, and, of several, for the one that is refused first.
"""
import binascii
import itertools
import struct
from hashlib import shake_128
from types import SimpleNamespace

FIRST, START = 0x53, 0x1D0F
HEAD, MOST = 6, 1440
CRC, HIGHER = 4, 8  # of the control byte: the bit that asks for a CRC, and the first that no frame may have
WHOLE = 2**16  # the length field wraps at it
# the top bit of the address, a code of the side's table, one of no table, and the row for that
COMMAND = SimpleNamespace(name="command", top=0x00, code=0x60, unknown=0x63, row=1)
REPLY = SimpleNamespace(name="reply", top=0x80, code=0x40, unknown=0x42, row=2)
EACH = tuple(itertools.product((COMMAND, REPLY), (0, CRC)))


def spell(b):
    """as gen.py does; many zeroes at the end are counted"""
    head = b.rstrip(b"\0")
    zeroes = len(b) - len(head)
    return f"{head.hex().upper()}{'+' if head else ''}00*{zeroes}" if zeroes > 64 else b.hex().upper() or "-"


def refused(row, code=0, first=0, second=0):
    return f"refused {row} {code:02X} {first} {second}"


def of_any_value(n):
    return shake_128(b"payload").digest(n)


def width(control):
    return 2 if control & CRC else 1


def room(n, control):
    """how many bytes the payload of a frame of n bytes has"""
    return n - HEAD - width(control)


def check(control, body, start=START):
    return struct.pack("<H", binascii.crc_hqx(body, start)) if control & CRC else bytes([-sum(body) % 256])


def head(address, control, code, n, first=FIRST):
    return bytes([first, address]) + struct.pack("<H", n % WHOLE) + bytes([control, code])


def frame(address, control, code, payload=b"", first=FIRST, length=None):
    """with the right check, and the right length unless another is given"""
    n = HEAD + len(payload) + width(control) if length is None else length
    body = head(address, control, code, n, first) + payload
    return body + check(control, body)


def level(address, control, code, n, first=FIRST, length=None):
    """a frame of n bytes whose payload begins with the bytes that make sum or CRC 0; zeroes follow, and the right check is 0 as well"""
    begun = head(address, control, code, n if length is None else length, first)
    return (begun + check(control, begun)[::-1]).ljust(n, b"\0")


def with_bit(f, at, bit=0):
    return f[:at] + bytes([f[at] ^ 1 << bit]) + f[at + 1:]


def read(f, words=None):
    return f"frame {spell(f)}", words


def said(address, control, code):
    """what a good frame says beside its payload"""
    side = REPLY if address & REPLY.top else COMMAND
    return f"{address % 128:02X} {side.name} {control & 3} {'crc' if control & CRC else 'sum'} {code:02X}"


def good(address, control, code, payload=b""):
    return read(frame(address, control, code, payload), f"read {said(address, control, code)} {spell(payload)}")


def good_ones():
    for side, crc in EACH:
        for n in (7, 8, 9, 71, MOST - 1, MOST):
            if room(n, crc) >= 0:
                yield good(side.top, crc, side.code, of_any_value(room(n, crc)))
        for address, sequence in itertools.product((0, 1, 126, 127), range(4)):
            yield good(side.top | address, crc | sequence, side.code, of_any_value(sequence))
        for n in (1, 2, 255, 256, 257):
            yield good(side.top, crc, side.code, b"\xff" * n)
        # the first byte of a frame, frames, and what ends like a frame
        inner = frame(side.top, crc, side.code)
        for payload in (b"\x53", b"\x53" * 9, inner, inner + inner, inner[:-1], frame(0x80, CRC, 0x40), b"\0" * 9, b"\xff\x53\0"):
            yield good(side.top, crc, side.code, payload)
        yield read(level(side.top, crc, side.code, MOST), f"read 00 {side.name} 0")
    # every check byte; 0 among them
    for b in range(256):
        for side, crc in EACH:
            yield good(side.top | 5, crc | 2, side.code, bytes([b]))
    yield from zeroes_in_crc()


def zeroes_in_crc():
    """CRCs with a low byte of 0, with a high one, with both, and with two bytes that are the same"""
    pairs = [bytes(p) for p in itertools.product(range(256), repeat=2)]
    for side in (COMMAND, REPLY):
        ends = [(p, frame(side.top, CRC, side.code, p)[-2:]) for p in pairs]
        for is_wanted in (lambda c: c[0] == 0 < c[1], lambda c: c[1] == 0 < c[0], lambda c: c == b"\0\0", lambda c: c[0] == c[1] > 0):
            yield good(side.top, CRC, side.code, next(p for p, c in ends if is_wanted(c)))


def by_code():
    for code in range(256):
        for side, crc in EACH:
            yield read(frame(side.top | 9, crc | 1, code))


def too_short():
    for n in range(HEAD + 1):
        for f in (*(frame(side.top, crc, side.code) for side, crc in EACH), b"\x53" * HEAD, b"\xff" * HEAD, b"\0" * HEAD):
            yield read(f[:n], refused(4, 0, 7, n))


def too_long():
    for side, crc in EACH:
        yield read(frame(side.top, crc, side.code, of_any_value(room(MOST + 1, crc))), refused(22))
        # also such that the length field is that of a short frame
        for n in (MOST + 1, MOST + 2, 2 * MOST, WHOLE - 1, WHOLE, WHOLE + 7, WHOLE + 8, WHOLE + MOST):
            yield read(level(side.top, crc, side.code, n), refused(22))


def first_bytes():
    for first in (0x00, 0x35, 0x52, 0x54, 0xD3, 0xFF):
        for side, crc in EACH:
            yield read(frame(side.top, crc, side.code, first=first), refused(20))


def lengths():
    for side, crc in EACH:
        for n in (HEAD + width(crc), 12, MOST):
            exchanged = n % 256 * 256 + n // 256
            for length in sorted({n - 1, n + 1, 0, 1, WHOLE - 1, exchanged, n ^ 0x100, room(n, crc), n - width(crc), WHOLE - n}):
                f = level(side.top, crc, side.code, n, length=length) if room(n, crc) else frame(side.top, crc, side.code, length=length)
                yield read(f, refused(6, 0, length, n))


def controls():
    """each value with a higher bit, in the shortest frame with the check that it asks for"""
    for control in range(HIGHER, 256):
        for side in (COMMAND, REPLY):
            yield read(frame(side.top, control, side.code), refused(20))


def crc_in_seven():
    """the last byte is right as a checksum, or not; or the last two are the CRC of those before"""
    for side in (COMMAND, REPLY):
        for sequence in range(4):
            body = head(side.top, CRC | sequence, side.code, 7)
            for f in (body + check(0, body), body + b"\0", body + b"\xff", body[:-1] + check(CRC, body[:-1])):
                yield read(f, refused(4, 0, 8, 7))


def other_checks(control, body):
    """checks that are not those of R102: of other bytes, from another start, or made otherwise"""
    n = width(control)
    yield from (check(control, part)[:n] for part in (body[1:], body[:-1], body[HEAD:], b""))
    if not control & CRC:
        yield from (bytes([sum(body) % 256]), bytes([~sum(body) % 256]), check(CRC, body)[:1])
        return
    right = check(control, body)
    yield from (check(control, body, start) for start in (0, 0xFFFF, 0x0F1D))
    yield from (right[::-1], bytes(0xFF - b for b in right), bytes(int(f"{b:08b}"[::-1], 2) for b in right), b"\0" + check(0, body))


def wrong_checks():
    for side, crc in EACH:
        for payload in (b"", b"\x01", b"\x12\x34\x56"):
            f = frame(side.top | 3, crc | 1, side.code, payload)
            body, right = f[:-width(crc)], f[-width(crc):]
            for at in range(len(body), len(f)):
                yield from (read(with_bit(f, at, bit), refused(21)) for bit in range(8))
            yield from (read(body + wrong, refused(21)) for wrong in other_checks(crc, body) if wrong != right)
            # a bit turned at every place
            for at, bit in itertools.product(range(len(body)), range(8)):
                yield read(with_bit(f, at, bit), refused(21) if at in (1, 5) or at >= HEAD else None)
        f = frame(side.top, crc, side.code, of_any_value(room(MOST, crc)))
        for at in sorted({HEAD, MOST - width(crc) - 1, MOST - width(crc), MOST - 1}):
            yield read(with_bit(f, at), refused(21))


def other_lengths():
    """cut at every length, and lengthened at the front and at the end"""
    for side, crc in EACH:
        f = frame(side.top, crc, side.code, b"\x53\x00\x08\x00\x04")
        for n in range(7, len(f)):
            yield read(f[:n], refused(6, 0, len(f), n))
        for b in (b"\0", b"\x53", b"\xff"):
            yield read(f + b, refused(6, 0, len(f), len(f) + 1))
            yield read(b + f, None if b == b"\x53" else refused(20))
        f = level(side.top, crc, side.code, MOST)
        yield read(f[:-1], refused(6, 0, MOST, MOST - 1))
        yield from (read(f + b"\0", refused(22)), read(b"\0" + f, refused(20)), read(b"\x53" + f, refused(22)))


# what a frame can be refused for, in the order in which it is
FAULTS = ("short", "first", "long", "length", "control", "seven", "check", "code")
# six bytes have no check
APART = ({"short", "long"}, {"short", "seven"}, {"long", "seven"}, {"short", "check"})


def size(faults):
    """how many bytes a frame with these faults has"""
    return next((n for name, n in (("short", 6), ("long", MOST + 1), ("seven", 7)) if name in faults), 12)


def faulty(faults, side, crc):
    """a frame with these faults and no other, except that six bytes have no check"""
    n = size(faults)
    begun = head(side.top | 1, crc | 2 | (HIGHER if "control" in faults else 0), side.unknown if "code" in faults else side.code,
                 n + 1 if "length" in faults else n, FIRST + 1 if "first" in faults else FIRST)
    f = (begun + check(0 if n == 7 else crc, begun)[::-1]).ljust(n, b"\0")[:n]
    return with_bit(f, HEAD) if "check" in faults else f


def words_for(faults, side):
    n = size(faults)
    rows = {"short": refused(4, 0, 7, 6), "long": refused(22), "length": refused(6, 0, n + 1, n), "seven": refused(4, 0, 8, 7), "check": refused(21)}
    return refused(side.row, side.unknown) if faults[0] == "code" else rows.get(faults[0], refused(20))


def with_faults():
    """every fault, every two, every three and all that one frame can have at once"""
    for many in range(1, len(FAULTS)):
        for faults in itertools.combinations(FAULTS, many):
            if not any(pair <= set(faults) for pair in APART):
                for side, crc in EACH:
                    if crc or "seven" not in faults:
                        yield read(faulty(faults, side, crc), words_for(faults, side))


def write(side, control, address, code, payload, words=None, sequence=None):
    sequence = control & 3 if sequence is None else sequence
    return f"frame-write {code:02X} {address:02X} {side.name} {sequence} {'crc' if control & CRC else 'sum'} {spell(payload)}", words


def wrote(side, control, address, payload):
    return write(side, control, address, side.code, payload, f"gave {spell(frame(side.top | address, control, side.code, payload))}")


def writes():
    for code in range(256):
        for side, crc in EACH:
            yield write(side, crc | 3, 7, code, b"")
    for side, crc in EACH:
        for n in (7, 8, 9, 71, MOST - 1, MOST):
            if room(n, crc) >= 0:
                yield wrote(side, crc, 0, of_any_value(room(n, crc)))
        # also such that the length wraps to that of a short frame
        for n in (MOST + 1, MOST + 2, 2 * MOST, WHOLE - 1, WHOLE, WHOLE + 7, WHOLE + 8, WHOLE + MOST):
            yield write(side, crc, 0, side.code, bytes(room(n, crc)), refused(22, side.code))
        yield write(side, crc, 0, side.code, bytes(65546), refused(22, side.code))
        for payload in (b"\x53", frame(side.top, crc, side.code), b"\xff" * 257):
            yield wrote(side, crc | 1, 127, payload)
        for address, sequence in itertools.product((0, 1, 126, 127, 128, 129, 254, 255), (0, 1, 2, 3, 4, 5, 7, 8, 255)):
            if address < 128 and sequence < 4:
                yield wrote(side, crc | sequence, address, b"")
            else:
                yield write(side, crc, address, side.code, b"", refused(20, side.code), sequence)


def writes_with_faults():
    """every fault of the writer, and those that it can have at once"""
    faults = ("address", "sequence", "code", "long")
    for many in range(1, len(faults) + 1):
        for chosen, (side, crc) in itertools.product(itertools.combinations(faults, many), EACH):
            code = side.unknown if "code" in chosen else side.code
            row = {"code": side.row, "long": 22}.get(chosen[0], 20)
            yield write(side, crc, 128 if "address" in chosen else 127, code, bytes(room(MOST + ("long" in chosen), crc)), refused(row, code),
                        4 if "sequence" in chosen else 3)


def of_bytes(start, b):
    total = (start + sum(b)) % 256
    return f"checks {start} {spell(b)}", f"gave {spell(struct.pack('<HBB', binascii.crc_hqx(b, start), total, -total % 256))}"


def checks():
    for b in (b"123456789", b"", b"\0", b"\xff", bytes(9), b"\xff" * 9, b"\0" * 300, b"\xff" * 300, bytes(range(256)), of_any_value(1500)):
        for start in (0, 1, 0xFF, 0x100, START, 0x8000, 0xFF00, 0xFFFF):
            yield of_bytes(start, b)
    for b in range(256):
        for start in (0, START):
            yield of_bytes(start, bytes([b]))


def frames():
    """cases, each with the words that its answer has to begin with, or None"""
    yield from good_ones()
    yield from by_code()
    yield from too_short()
    yield from too_long()
    yield from first_bytes()
    yield from lengths()
    yield from controls()
    yield from crc_in_seven()
    yield from wrong_checks()
    yield from other_lengths()
    yield from with_faults()
    yield from writes()
    yield from writes_with_faults()
    yield from checks()


if __name__ == "__main__":
    for case, words in dict.fromkeys(frames()):
        if words:
            print(f"{case} => {words}")
