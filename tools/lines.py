#!/usr/bin/env python3
"""Counts each crate's lines of code, definitions and proofs, and with --seconds also proves each, and gives the seconds of its `rt check`.

usage: lines.py [--seconds]

With --seconds the crates are copied to a temporary folder and proved there, one after the other, in the order of crates.txt. It stops at the first that
is not proved. rt begins with what earlier checks on the machine kept of a crate: only where there is nothing kept are these the seconds from nothing.
"""
import re
import shutil
import subprocess
import sys
import tempfile
import time
from pathlib import Path

top = Path(__file__).resolve().parent.parent
order = re.findall(r"^(\w+)[^#:\n]*:", (top / "crates.txt").read_text(encoding="utf-8"), re.M)


def lines(folder, ending):
    return sum(len(p.read_text(encoding="utf-8").splitlines()) for p in folder.rglob("*" + ending))


def proved():
    """{crate: seconds}"""
    found = {}
    with tempfile.TemporaryDirectory() as copy:
        shutil.copytree(top / "crates", f"{copy}/crates", ignore=shutil.ignore_patterns("out", "must-fail"))
        shutil.copy(top / "crates.txt", copy)
        for name in order:
            start = time.monotonic()
            ran = subprocess.run(["rt", "check"], cwd=f"{copy}/crates/{name}", stdout=subprocess.PIPE, stderr=subprocess.STDOUT, text=True)
            if ran.returncode:
                sys.exit(f"{ran.stdout}lines.py: {name} is not proved")
            found[name] = round(time.monotonic() - start)
    return found


if sys.argv[1:] not in ([], ["--seconds"]):
    sys.exit(__doc__)
seconds = proved() if sys.argv[1:] else {}
print("| Crate | Code | Definitions | Proofs | Must-fail edits | Check, s |\n|---|---|---|---|---|---|")
total = [0] * 4
for name in order:
    crate = top / "crates" / name
    row = [lines(crate / "src", ".rt"), lines(crate / "specs", ".antt"), lines(crate / "proofs", ".antt"),
           len(list(crate.glob("must-fail/*.edit")))]
    total = [a + b for a, b in zip(total, row)]
    print(f"| {name} | " + " | ".join(map(str, row)) + f" | {seconds.get(name, '')} |")
print("| all | " + " | ".join(map(str, total)) + f" | {sum(seconds.values()) or ''} |")
