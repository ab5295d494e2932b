#!/usr/bin/env python3
"""Runs a command while no other run works in this repository's build/ and target/: alone.py COMMAND [ARGUMENT..]

The lock is a flock on build/lock, which every process of the run inherits and which goes with the last of them, however they end. ALONE in the
environment names the lock and the run, so that a call inside the run passes. If another run holds the lock, exits with 2 and one line.
"""
import fcntl
import os
import sys
import time
from pathlib import Path

LOCK = Path(__file__).resolve().parent.parent / "build/lock"


def holder(fd):
    """what the run that holds the lock wrote into it: its name, and words for people"""
    name, _, words = os.pread(fd, 4096, 0).decode("utf-8", "replace").partition("\n")
    return name, words.strip()


def locked(fd):
    try:
        fcntl.flock(fd, fcntl.LOCK_EX | fcntl.LOCK_NB)
        return True
    except BlockingIOError:
        return False


def main(command):
    LOCK.parent.mkdir(exist_ok=True)
    fd = os.open(LOCK, os.O_RDWR | os.O_CREAT, 0o644)
    if locked(fd):
        run = f"{LOCK}:{os.getpid()}.{time.time_ns()}"
        words = f"{' '.join(command)} (process {os.getpid()}, since {time.strftime('%H:%M:%S')})"
        os.truncate(fd, 0)
        os.pwrite(fd, f"{run}\n{words}\n".encode(), 0)
        os.environ["ALONE"] = run
        os.set_inheritable(fd, True)
    elif (held := holder(fd))[0] != os.environ.get("ALONE"):
        print(f"another run is at work in {LOCK.parent.parent}: {held[1]}; try again when it has ended", file=sys.stderr)
        return 2
    try:
        os.execvp(command[0], command)
    except OSError as e:
        print(f"{command[0]}: {e.strerror}", file=sys.stderr)
        return 127


sys.exit(main(sys.argv[1:]) if sys.argv[1:] else __doc__)
