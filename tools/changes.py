#!/usr/bin/env python3
"""Says what one commit changes in another: definitions, theorems, contracts, proofs and edits, counted and named, in Markdown.

A table has a row for each crate in which something differs, and one for all. The first number of a cell counts what is the same.

  same     the same crate, file and name, and the same text
  moved    the same name and text in another file or crate
  renamed  the same text, but the item, or a field, constructor or clause of it, has another name
  changed  the text differs, or one old name stands where two new ones do, or the reverse; also a contract made public or private
  new      in the later commit alone
  gone     in the earlier one alone

"The same text" is said of the names' meanings: each name is followed through the imports to the item that it means, and the two
texts must be the same under one map of the repository's names, one to one, in which these items are themselves matched. So
imports, places of files, comments and layout count as nothing, and bound variables may have other names. The name of a field
behind a dot is taken as a field of some record, since only types would say of which; where that leaves a doubt, a line says so.

A definition is an abbrev, unfoldable, record or data item, of which the whole text counts. Any other item of specs/ and proofs/
is a theorem: nothing outside its file can open it. Of a theorem, and of a function, the statement (type, or signature and
clauses) and the proof (or the code) are counted apart. Answers are a function's files Answers, Invariants and Proof.antt.
Names of theorems and functions of which only the proof or the code changed are listed with --full, and those in specs/ always.
"""

import argparse
import sys

from compare import seconds
from compare.match import Matching
from compare.report import Report
from compare.selftest import selftest
from compare.snapshot import Snapshot, Unreadable


def arguments():
    parser = argparse.ArgumentParser(description=__doc__, formatter_class=argparse.RawDescriptionHelpFormatter)
    parser.add_argument("base", nargs="?", metavar="BASE", help="the earlier commit")
    parser.add_argument("head", nargs="?", metavar="HEAD", default="HEAD", help="the later commit (HEAD if left out)")
    parser.add_argument("--full", action="store_true", help="also list what was renamed or moved, as old → new, and whose proof or code changed")
    parser.add_argument("--diff", metavar="NAME", action="append", help="print only how the items of this name changed, once names are taken as renamed")
    parser.add_argument("--seconds", action="store_true", help="also time each crate's check at both commits, from nothing, one after another: let nothing run beside it")
    parser.add_argument("--only", metavar="CRATE", action="append", help="with --seconds: time this crate and those that it stands on alone")
    parser.add_argument("--selftest", action="store_true", help="try this program on small repositories of its own")
    given = parser.parse_args()
    if not given.selftest and not given.base:
        parser.error("give BASE, the earlier commit")
    return given


def main():
    given = arguments()
    if given.selftest:
        return selftest()
    old, new = Snapshot(given.base), Snapshot(given.head)
    report = Report(old, new, Matching(old, new))
    for name in given.diff or []:
        text = report.difference(name)
        if text is None:
            raise Unreadable(f"neither commit has an item {name}")
        print(text)
    if given.diff:
        return 0
    print(report.text(given.full))
    if given.seconds:
        print("\n" + seconds.report(old.commit, new.commit, given.only))
    return 0


if __name__ == "__main__":
    try:
        sys.exit(main())
    except Unreadable as fault:
        sys.exit(f"changes: {fault}")
