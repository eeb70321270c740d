#!/usr/bin/env python3
"""The programs repeats and stepdesk on files, named pipes and standard input, in a folder of its own.

usage: files.py     after `rt run` in crates/repeats and crates/stepdesk; prints what differs, and how many cases there were"""
import os
import pathlib
import subprocess
import sys
import tempfile
import threading
import time

sys.dont_write_bytecode = True
from cases import CLAIM, EMPTY, EXAMPLE, LONGEST, OTHER, ROOT, ending, entails, at0, FT

USAGE = "usage: repeats LEDGER LEDGER\n"
UNREAD = "cannot be read\n"
LONG = "longer than a ledger may be\n"


def padded(content, length):
    return content + bytes(length - len(content))


FILES = {
    "example": EXAMPLE,
    "other": OTHER,
    "twice": ending(CLAIM, CLAIM),
    "fresh": ending(entails(2, at0(0), FT)),
    "wrong": ending(entails(1, at0(0), FT, (3, 2, 4))),
    "empty": EMPTY,
    "nothing": b"",
    "three": bytes(3),
    "longest": padded(EXAMPLE, LONGEST),
    "longer": padded(EXAMPLE, LONGEST + 1),
}

# Arguments, and what is printed.
REPEATS = [
    ("example other", "repeats\n"),
    ("other example", "repeats\n"),
    ("example example", "repeats\n"),
    ("example twice", "repeats\n"),
    ("example longest", "repeats\n"),
    ("longest longest", "repeats\n"),
    ("example wrong", "repeats\n"),
    ("example fresh", "fresh\n"),
    ("empty empty", "fresh\n"),
    ("empty example", "fresh\n"),
    ("example three", "refused 1\n"),
    ("nothing empty", "refused 1\n"),
    ("example /dev/null", "refused 1\n"),
    ("example longer", "longer: " + LONG),
    ("longer missing", "longer: " + LONG + "missing: " + UNREAD),
    ("missing folder", "missing: " + UNREAD + "folder: " + UNREAD),
    ("example " + 5000 * "x", ": " + UNREAD),
    ("", USAGE),
    ("example", USAGE),
    ("example other twice", USAGE),
]
STEPDESK = [
    ("example", "passed 6\n"),
    ("wrong", "refused 10 at 5\n"),
    ("nothing", "refused 1\n"),
    ("longest", "passed 6\n"),
    ("longer", "refused 1\n"),
    ("missing", UNREAD),
    ("folder", UNREAD),
    (
        "example wrong empty three missing longest longer folder other",
        "example: passed 6\nwrong: refused 10 at 5\nempty: passed 0\nthree: refused 1\nmissing: " + UNREAD
        + "longest: passed 6\nlonger: refused 1\nfolder: " + UNREAD + "other: passed 7\n",
    ),
]  # fmt: skip
STDIN = [
    ("example", "passed 6\n"),
    ("wrong", "refused 10 at 5\n"),
    ("nothing", "refused 1\n"),
    ("longest", "passed 6\n"),
    ("longer", "refused 1\n"),
]


def run(program, args, stdin=b""):
    done = subprocess.run([ROOT / "crates" / program / "out" / program, *args.split()], input=stdin, capture_output=True)
    return done.stdout.decode()


def drip(path, content, pieces=5):
    """Writes to a named pipe piece by piece, so that reads are short."""
    size = len(content) // pieces + 1
    with open(path, "wb", buffering=0) as out:
        for i in range(0, len(content), size):
            out.write(content[i : i + size])
            time.sleep(0.05)


def answers():
    """What was run, what it printed, and what it should have."""
    for args, want in REPEATS:
        yield "repeats " + args, run("repeats", args), want
    for args, want in STEPDESK:
        yield "stepdesk " + args, run("stepdesk", args), want
    for name, want in STDIN:
        yield f"stepdesk < {name}", run("stepdesk", "", FILES[name]), want
    for args, want in [("pipe other", "repeats\n"), ("fresh pipe", "fresh\n")]:
        writer = threading.Thread(target=drip, args=("pipe", EXAMPLE))
        writer.start()
        yield "repeats " + args, run("repeats", args), want
        writer.join()


def main():
    with tempfile.TemporaryDirectory() as folder:
        os.chdir(folder)
        for name, content in FILES.items():
            pathlib.Path(name).write_bytes(content)
        os.mkdir("folder")
        os.mkfifo("pipe")
        every = list(answers())
        os.chdir("/")
    different = [case for case in every if case[1] != case[2]]
    for what, have, want in different:
        print(f"DIFFERENCE: {what[:80]}: {have!r}, expected {want!r}")
    print(f"{len(every)} cases, differences: {len(different)}")
    return 1 if different else 0


if __name__ == "__main__":
    raise SystemExit(main())
