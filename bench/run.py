#!/usr/bin/env python3
"""Measures runjob beside an interpreter of the same rows, written in C (bench/interpreter.c).

The interpreter is built by each of gcc and clang that is there, into bench/out, and in two ways. The plain one reads
the row of each cycle from a table and asks each field of it. The one by row has code for each listed row, as runjob
has.

First all programs have to give the same replies: to the jobs of bench/jobs.py, and to the cases of
crates/runcases/data that have no denials. Then two things are measured by the jobs, and printed as tables in Markdown:

  host instructions a cycle   counted by valgrind, which must be there
  user seconds                of jobs of 131 million cycles: the best and the middle of some tries, in which the
                              programs take turns; with the speeds and the ratios that follow

Let nothing else run beside it. It takes some minutes. The status is 1 where replies differ, and 2 where something is
not there or fails.
"""

import argparse
import os
import sys
import tempfile
from pathlib import Path

ROOT = Path(__file__).resolve().parent.parent
sys.path.insert(0, str(ROOT / "tools"))

from agree import Differ, compare
from measure import count_table, time_tables
from programs import Failed, interpreters, machine, proved, sources_since

RUNJOB = ROOT / "crates" / "runjob" / "out" / "runjob"


def tries(text):
    """A number of tries."""
    if not text.isdecimal() or int(text) == 0:
        raise argparse.ArgumentTypeError("a number from 1 on is wanted")
    return int(text)


def arguments():
    """What the command line says."""
    parser = argparse.ArgumentParser(description=__doc__, formatter_class=argparse.RawDescriptionHelpFormatter)
    parser.add_argument("--runjob", metavar="[LABEL=]PATH", action="append",
                        help="a program runjob, for each time that this is given (crates/runjob/out/runjob)")
    parser.add_argument("--tries", metavar="K", type=tries, default=5, help="how often each job is timed (5)")
    parser.add_argument("--no-time", action="store_true", help="time nothing")
    parser.add_argument("--no-count", action="store_true", help="count no host instructions")
    return parser.parse_args()


def main():
    told = arguments()
    load = os.getloadavg()[0]
    programs = proved(told.runjob, RUNJOB)
    for program in programs:
        if sources_since(program):
            print(f"bench: sources are newer than {program.path}", file=sys.stderr)
    built = ROOT / "bench" / "out"
    built.mkdir(exist_ok=True)
    programs += interpreters(built)
    print(compare(programs), flush=True)
    with tempfile.TemporaryDirectory(prefix="bench-") as folder:
        if not told.no_count:
            print(f"\n{count_table(programs, Path(folder))}", flush=True)
        if not told.no_time:
            print(f"\n{time_tables(programs, told.tries, Path(folder))}", flush=True)
    print(f"\n{machine()}")
    if load > 1 and not told.no_time:
        print(f"\nThe machine was at work on something else (load {load:.1f}), so the seconds say little.")
    return 0


if __name__ == "__main__":
    try:
        sys.exit(main())
    except Differ as why:
        print(f"bench: {why}", file=sys.stderr)
        sys.exit(1)
    except (Failed, OSError) as why:
        print(f"bench: {why}", file=sys.stderr)
        sys.exit(2)
    except KeyboardInterrupt:
        sys.exit(130)
