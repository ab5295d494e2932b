#!/usr/bin/env python3
"""Checks that README.md shows what a program says: shown.py OUTPUT BEGINS

A block is a line that the pattern BEGINS fits, with the lines after it up to the next such line or an empty one; in README.md it is indented by four
spaces. README.md has to have a block, and each of its blocks has to be one of OUTPUT, a file with what the program says.
"""
import re
import sys
from pathlib import Path

if len(sys.argv) != 3:
    sys.exit(__doc__)
output, begins = sys.argv[1:]


def blocks(path, indent):
    text = Path(path).read_text(encoding="utf-8")
    found = re.findall(rf"^{indent}(?={begins}).*\n(?:^{indent}(?!{begins}).+\n)*", text, re.M)
    return [re.sub(f"^{indent}", "", block, flags=re.M) for block in found]


shown, said = blocks(Path(__file__).resolve().parent.parent / "README.md", " " * 4), blocks(output, "")
wrong = [block for block in shown if block not in said]
if wrong or not shown:
    sys.exit(f"README.md shows what is not in {output}:\n{''.join(wrong)}" if wrong else f"README.md shows no line that {begins!r} fits")
