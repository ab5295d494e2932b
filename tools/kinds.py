"""The kinds of kinds.txt, whose head describes the columns."""
from pathlib import Path
from types import SimpleNamespace


def numbers(column):
    return tuple(int(n) for n in column.split(","))


def span(field):
    """the lowest and the highest byte of a field that has a range, or None"""
    if "-" not in field and not field.startswith("<="):
        return None
    low, high = ("00", field[2:]) if field.startswith("<=") else field.split("-")
    return int(low, 16), int(high, 16)


def is_tail(field):
    return field.startswith(("text", "tail"))


def width(field):
    """the bytes of a field before the tail"""
    return int(field) if field.isdigit() else 2 if field.endswith("16") else 1


def kind(line):
    name, side, code, least, most, step, rows, layout, tried, timed = line.split()
    fields = layout.split(",")
    places = [sum(map(width, fields[:i])) for i in range(len(fields))]
    return SimpleNamespace(
        name=name, side=side, code=int(code, 16), least=int(least), most=int(most), step=int(step), fields=fields, tried=numbers(tried),
        limits=[(at, span(field)[1]) for at, field in zip(places, fields) if field.startswith("<=")],
        declared=next((field for field in fields if field in ("len8", "len16", "count8", "bits16")), None),
        copied=fields[-1].startswith("tail"),  # normalising copies the tail without looking at it
        kept_after=int(fields[-1][5:], 16) if fields[-1].startswith("tail:") else None)


KINDS = [kind(line) for line in (Path(__file__).parent / "kinds.txt").read_text(encoding="utf-8").splitlines() if line and line[0] != "#"]
