#!/usr/bin/env python3
"""Runs `check` over all of examples/ and compares verdict and size with the table of examples/README.md.

    bench/examples.py [--program PATH] [--limit SECONDS] [--write]

The size is the number of cubes of the certificate (SAFE), of steps of the trace (UNSAFE), or of nodes of the journal
(UNKNOWN): the program prints no other count. Each example is checked with `--cubes 65536`. A line is printed for each,
with its processor seconds; seconds are not compared. The status is 1 where a verdict or a size differs, a file has no
row or a row no file. `--write` puts verdicts, sizes and seconds into the table instead, but for runs over the limit.
"""

import argparse
import glob
import os
import re
import sys

sys.dont_write_bytecode = True
from running import HERE, PROGRAM, make_ready, run

EXAMPLES = os.path.join(os.path.dirname(HERE), "examples")
TABLE = os.path.join(EXAMPLES, "README.md")
ROW = re.compile(r"^\| `([\w.]+\.cub)` \| (.*) \| (.*) \| (.*) \| (.*) \|$")


def rows():
    """The rows of the table: verdict, size and seconds by file."""
    found = {}
    with open(TABLE, encoding="utf-8") as table:
        for line in table:
            row = ROW.match(line.rstrip("\n"))
            if row:
                found[row.group(1)] = row.groups()[2:]
    return found


def write(measured):
    """Puts what was measured into the rows of the table."""
    with open(TABLE, encoding="utf-8") as table:
        lines = table.read().split("\n")
    for number, line in enumerate(lines):
        row = ROW.match(line)
        if row and row.group(1) in measured:
            lines[number] = "| `%s` | %s | %s | %s | %s |" % ((row.group(1), row.group(2)) + measured[row.group(1)])
    with open(TABLE, "w", encoding="utf-8") as table:
        table.write("\n".join(lines))


def main():
    words = argparse.ArgumentParser(description=__doc__, formatter_class=argparse.RawDescriptionHelpFormatter)
    words.add_argument("--program", default=PROGRAM, help="the program; ../parcub where not given")
    words.add_argument("--limit", type=float, default=600, help="seconds that a run may take; 600 where not given")
    words.add_argument("--write", action="store_true", help="write the table instead of comparing with it")
    given = words.parse_args()
    files = sorted(os.path.basename(path) for path in glob.glob(os.path.join(EXAMPLES, "*.cub")))
    wanted = rows()
    make_ready(given.program, os.path.join(EXAMPLES, files[0]))
    measured = {}
    finished = {}
    wrong = [name for name in wanted if name not in files]
    for name in wrong:
        print("%-34s has no file" % name)
    for name in files:
        done = run(given.program, ["check", os.path.join(EXAMPLES, name), "--cubes", "65536"], given.limit)
        measured[name] = (done.verdict(), done.size(), "%.2f" % done.seconds)
        if done.status is not None:
            finished[name] = measured[name]
        note = ""
        if name not in wanted:
            note = "  HAS NO ROW"
        elif not given.write and wanted[name][:2] != measured[name][:2]:
            note = "  DIFFERS: %s, %s" % wanted[name][:2]
        if note:
            wrong.append(name)
        print("%-34s %-20s %-12s %8s%s" % ((name,) + measured[name] + (note,)), flush=True)
    if given.write:
        write(finished)
    print("%d examples, %d wrong" % (len(files), len(wrong)))
    return 1 if wrong else 0


if __name__ == "__main__":
    sys.exit(main())
