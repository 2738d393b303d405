#!/usr/bin/env python3
"""Measures `check` on larger protocols, with a growing budget of cubes and a growing size.

    bench/large.py [--program PATH] [--limit SECONDS] [--only FAMILY] [--small] [FILE ..]

Three families are made here, each of a growing size N:

    sample    one process after another climbs N levels; the protocol of `sample N`, as a text
    chains    two such climbs, of N levels each, that go on side by side
    counter   the climb with an integer in place of the levels, up to N

Each FILE is measured as a protocol of its own. A protocol is checked with `--cubes` 1024, 4096, 16384 and 65536, until
the budget suffices. A line tells the processor seconds, the greatest memory in MiB, the verdict, the size (the cubes of the
certificate, the steps of the trace, or the nodes of the journal), and the seconds and the memory as multiples of those of
the line before: of the smaller budget, or where a size begins, of the size before. `--small` measures small sizes only.

Behind a line of the family `sample` the covering tests of that search are told, where the program `figures` of crates/figures
was built.
"""

import argparse
import os
import subprocess
import sys
import tempfile

sys.dont_write_bytecode = True
from running import HERE, PROGRAM, make_ready, run

BUDGETS = [1024, 4096, 16384, 65536]
SIZES = {"sample": [8, 16, 32, 63], "chains": [4, 6, 8, 10, 12], "counter": [25, 50, 100, 150]}
SMALL = {"sample": [4, 8], "chains": [3, 4], "counter": [10, 20]}


def climb(step, array, level, levels):
    """The transitions of a climb. The first needs all others at the bottom, the second none other on level 1."""
    lines = []
    for to in range(1, levels + 1):
        others = ""
        if to == 1:
            others = " && forall_other j. %s[j] = %s0" % (array, level)
        elif to == 2:
            others = " && forall_other j. %s[j] <> %s1" % (array, level)
        lines.append("transition %s%d (i) requires { %s[i] = %s%d%s } { %s[i] := %s%d }"
                     % (step, to, array, level, to - 1, others, array, level, to))
    return lines


def levels_of(name, level, levels):
    """The type of the levels 0 to the highest."""
    return "type %s = %s" % (name, " | ".join("%s%d" % (level, number) for number in range(levels + 1)))


def sample(levels):
    return [levels_of("level", "L", levels), "array A[proc] : level", "init (z) { A[z] = L0 }",
            "unsafe (x y) { A[x] = L%d && A[y] = L%d }" % (levels, levels)] + climb("up", "A", "L", levels)


def chains(levels):
    top = "A[%s] = L" + str(levels) + " && B[%s] = M" + str(levels)
    return [levels_of("left", "L", levels), levels_of("right", "M", levels), "array A[proc] : left",
            "array B[proc] : right", "init (z) { A[z] = L0 && B[z] = M0 }",
            "unsafe (x y) { %s && %s }" % (top % ("x", "x"), top % ("y", "y"))] \
        + climb("left", "A", "L", levels) + climb("right", "B", "M", levels)


def counter(most):
    return ["array A[proc] : int", "init (z) { A[z] = 0 }",
            "unsafe (x y) { A[x] = %d && A[y] = %d }" % (most, most),
            "transition first (i) requires { A[i] = 0 && forall_other j. A[j] = 0 } { A[i] := 1 }",
            "transition second (i) requires { A[i] = 1 && forall_other j. A[j] <> 1 } { A[i] := 2 }",
            "transition next (i) requires { A[i] >= 2 } { A[i] := A[i] + 1 }"]


FAMILIES = {"sample": sample, "chains": chains, "counter": counter}


def multiple(now, before):
    """How many times as much as before."""
    return "%.1f" % (now / before) if before else "-"


def measure(given, name, path, before):
    """Checks the protocol with each budget, and answers the last run. Multiples begin with the run before."""
    done = None
    for budget in BUDGETS:
        done = run(given.program, ["check", path, "--cubes", str(budget)], given.limit)
        seconds = multiple(done.seconds, before and before.seconds)
        memory = multiple(done.memory, before and before.memory)
        print("%-24s %6d %9.2f %8.1f  %-20s %-12s %7s %7s" % (name, budget, done.seconds, done.memory / 2 ** 20,
                                                              done.verdict(), done.size(), seconds, memory), flush=True)
        before = done
        if done.verdict() != "UNKNOWN cubes":
            break
    return done


FIGURES = os.path.join(os.path.dirname(HERE), "crates", "figures", "out", "figures")


def tell_tests(levels):
    """Tells the covering tests of the search of the sample protocol, where the program that counts them is there."""
    if os.path.exists(FIGURES):
        told = subprocess.run([FIGURES, "tests", str(levels), "1"], capture_output=True, text=True).stdout.split()
        print("%-24s %s covering tests" % ("", told[-1] if told else "no"), flush=True)


def measure_family(given, folder, family, sizes):
    """Measures the protocols of one family."""
    done = None
    for size in sizes:
        path = os.path.join(folder, "%s_%d.cub" % (family, size))
        with open(path, "w", encoding="ascii") as file:
            file.write("\n".join(FAMILIES[family](size)) + "\n")
        done = measure(given, "%s %d" % (family, size), path, done)
        if family == "sample":
            tell_tests(size)


def main():
    words = argparse.ArgumentParser(description=__doc__, formatter_class=argparse.RawDescriptionHelpFormatter)
    words.add_argument("--program", default=PROGRAM, help="the program; ../parcub where not given")
    words.add_argument("--limit", type=float, default=600, help="seconds that a run may take; 600 where not given")
    words.add_argument("--only", choices=sorted(FAMILIES) + ["files"], help="one family, or the given files, alone")
    words.add_argument("--small", action="store_true", help="small sizes only")
    words.add_argument("file", nargs="*", help="further protocols")
    given = words.parse_args()
    make_ready(given.program, os.path.join(os.path.dirname(HERE), "examples", "mutex.cub"))
    print("%-24s %6s %9s %8s  %-20s %-12s %7s %7s"
          % ("protocol", "cubes", "seconds", "MiB", "verdict", "size", "x sec", "x MiB"))
    with tempfile.TemporaryDirectory() as folder:
        for family in FAMILIES:
            if given.only in (None, family):
                measure_family(given, folder, family, (SMALL if given.small else SIZES)[family])
        if given.only in (None, "files"):
            for path in given.file:
                measure(given, os.path.basename(path), path, None)
    return 0


if __name__ == "__main__":
    sys.exit(main())
