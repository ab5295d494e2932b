#!/usr/bin/env python3
"""Says at once what is wrong with an argument of make or of a script: arguments.py NAME..

Each NAME is read from the environment, where make puts it; one that is empty or absent has its default. Exits with 2, and one line, if one is wrong.
"""
import os
import re
import sys
from pathlib import Path

top = Path(__file__).resolve().parent.parent
RUST = top / "../shared/docs/src"
NUMBER = "0|[1-9][0-9]{0,19}"
MOST_SCALE = 10000  # oracle/gen.py holds its cases in memory: about half a GB for each 1,000
MOST_RUNS = 1000


def seed(text):
    if not re.fullmatch(rf"{NUMBER}|0x[0-9A-Fa-f]{{1,16}}", text) or int(text, 0) >= 2**64:
        return "has to be a decimal number (without zeroes before it), or 0x and hex digits, below 2^64"


def scale(text):
    if not re.fullmatch(NUMBER, text) or not 1 <= int(text) <= MOST_SCALE:
        return f"has to be a number from 1 to {MOST_SCALE:,}"


def runs(text):
    if not re.fullmatch(NUMBER, text) or not 1 <= int(text) <= MOST_RUNS:
        return f"has to be a number from 1 to {MOST_RUNS:,}"


def rust(text):
    folder = Path(text or RUST)
    if not any((folder / led).is_file() for led in ("command/led.rs", "src/command/led.rs")):
        return ("has to be a folder with the original Rust, Quantumlyy/osdp-rs at commit 8e2b7c7df1: "
                "command/led.rs or src/command/led.rs has to be in it")


def beside(text):
    if not Path(text).is_file():
        return "has to be a file: another build of libosdp.a"


def changed(text):
    if text != "yes":
        return "has to be yes, or nothing"


RULES = {"SEED": seed, "SCALE": scale, "RUNS": runs, "RUST": rust, "BESIDE": beside, "CHANGED": changed}
NEEDED = {"RUST": RUST}  # what is looked at even if nothing was given

for name in sys.argv[1:]:
    given = os.environ.get(name, "")
    wrong = RULES[name](given) if given or name in NEEDED else None
    if wrong:
        print(f"{name}={given or NEEDED[name]}: {wrong}", file=sys.stderr)
        sys.exit(2)
