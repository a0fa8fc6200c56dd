#!/usr/bin/env python3
"""The replies that the rules of docs/ give to jobs, by a model of its own (tools/model/).

tools/model.py <JOB                                           prints the replies to a job
tools/model.py --cases crates/runcases/data/*.txt             compares each case's replies with the model's
tools/model.py --cases --rewrite crates/runcases/data/*.txt   writes the model's replies into the files
tools/model.py --cover crates/runcases/data/*.txt             prints how much the cases cover

Processor and instruction book run beside one another, and are compared at every boundary.
The status is not zero where a case differs.
"""

import argparse
import sys
from pathlib import Path

from model.cases import Malformed, difference, read, rewritten
from model.cover import table
from model.jobs import Apart, replies


def cases(file):
    """The cases of a file."""
    try:
        return read(file.read_text())[1]
    except (OSError, UnicodeDecodeError, Malformed) as why:
        sys.exit(f"{file}: {why}")


def compare(files):
    """Compares the cases of files; how many differ."""
    count = differ = 0
    for file in files:
        for case in cases(file):
            count += 1
            why = difference(case)
            if why:
                differ += 1
                print(f"{file}, line {case.number}: case {case.name}, {why}")
    print(f"{count} cases, {differ} differ")
    return differ


def rewrite(files):
    """Writes the model's replies into files, where those in them differ."""
    for file in files:
        cases(file)
        file.write_text(rewritten(file.read_text()))


def arguments():
    """What the command line says."""
    parser = argparse.ArgumentParser(description=__doc__, formatter_class=argparse.RawDescriptionHelpFormatter)
    parser.add_argument("--cases", action="store_true", help="compare the cases of the files")
    parser.add_argument("--rewrite", action="store_true", help="write the model's replies into the files")
    parser.add_argument("--cover", action="store_true", help="print how much the cases cover")
    parser.add_argument("files", nargs="*", type=Path)
    return parser.parse_args()


def main():
    told = arguments()
    if told.rewrite:
        rewrite(told.files)
    if told.cover:
        print("\n".join(table([case.job for file in told.files for case in cases(file)])))
    elif told.cases or told.files:
        return 1 if compare(told.files) else 0
    else:
        for reply in replies(sys.stdin.buffer.read()):
            print(reply)
    return 0


try:
    sys.exit(main())
except Apart as why:
    sys.exit(str(why))
