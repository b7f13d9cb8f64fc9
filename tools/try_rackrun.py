#!/usr/bin/env python3
"""Tries the program `rackrun` on what no clause can speak of: files, closed and full outputs, and input that is no file.

Run in the repository's root, once `cd crates/rackrun && rt run < stdin` has built the program:

    python3 tools/try_rackrun.py

It runs the program on every sheet under crates/sheet_runs/data, and compares what is printed with the lines beside it; on a sheet of
4,096 bytes and on that sheet with one byte more, the first 4,096 of which are lawful; on empty input; with its output closed, and on a
full disk; with its input closed; and on a folder as input. It prints what it found, and ends with status 1 where anything differs.
"""
import pathlib
import subprocess
import sys

ROOT = pathlib.Path(__file__).resolve().parent.parent
PROGRAM = ROOT / "crates" / "rackrun" / "out" / "rackrun"
SHEETS = ROOT / "crates" / "sheet_runs" / "data"
LONGEST = 4096

differences = 0


def shell(command, data=b""):
    """Runs the program under a shell that sets up its streams."""
    return subprocess.run(["sh", "-c", command, "sh", str(PROGRAM)], input=data, capture_output=True, timeout=60)


def compare(name, run, status, printed, complains=None):
    """Whether status and standard output are as they must be, and standard error says something exactly when it must."""
    global differences
    complains = status != 0 if complains is None else complains
    fine = run.returncode == status and run.stdout == printed and bool(run.stderr) == complains
    if not fine:
        differences += 1
    error = run.stderr.decode(errors="replace").strip().replace("\n", " / ")
    print(f"{name}: status {run.returncode}, {len(run.stdout)} bytes printed, error {error!r}: {'as expected' if fine else 'DIFFERS'}")


def try_sheets():
    for sheet in sorted(SHEETS.glob("*.sheet")):
        run = shell('exec "$1"', sheet.read_bytes())
        compare(sheet.name, run, 0, sheet.with_suffix(".lines").read_bytes())


def try_lengths():
    lawful = (SHEETS / "longest.sheet").read_bytes()
    assert len(lawful) == LONGEST
    compare("4,096 bytes", shell('exec "$1"', lawful), 0, b"")
    for last in b"0", b"\n", b"x":
        compare(f"4,097 bytes, the last being {last}", shell('exec "$1"', lawful + last), 0, b"no 1 S 0 0\n")
    compare("a million bytes", shell('exec "$1"', lawful + b"0" * 1_000_000), 0, b"no 1 S 0 0\n")
    compare("4,097 bytes in two pieces", shell('{ head -c 4096; sleep 1; cat; } | "$1"', lawful + b"0"), 0, b"no 1 S 0 0\n")
    compare("no bytes", shell('exec "$1"'), 0, b"no 2 S 0 0\n")


def try_streams():
    sheet = (SHEETS / "sample.sheet").read_bytes()
    compare("output to a full disk", shell('exec "$1" > /dev/full', sheet), 1, b"")
    compare("closed output", shell('exec "$1" >&-', sheet), 1, b"")
    compare("closed input", shell('exec "$1" <&-', sheet), 1, b"")
    compare("a folder as input", shell('exec "$1" < /', sheet), 1, b"")


if not PROGRAM.exists():
    sys.exit(f"{PROGRAM} is not there: build it with `cd crates/rackrun && rt run < stdin`")
try_sheets()
try_lengths()
try_streams()
print(f"{differences} differences")
sys.exit(1 if differences else 0)
