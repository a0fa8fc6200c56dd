"""Whether all programs give the same replies: to the jobs to measure by, and to the cases of crates/runcases."""

from itertools import zip_longest
from pathlib import Path

from jobs import JOBS, job
from model.cases import Malformed, read
from programs import Failed, replies

CASES = Path(__file__).resolve().parent.parent / "crates" / "runcases" / "data"

RUNS = 3


class Differ(Exception):
    """Two programs reply otherwise, in words."""


def cases():
    """The cases of all files, by their names."""
    for file in sorted(CASES.glob("*.txt")):
        try:
            for case in read(file.read_text())[1]:
                yield f"{file.name}, case {case.name}", case
        except (OSError, UnicodeDecodeError, Malformed) as why:
            raise Failed(f"{file}: {why}") from None


def has_denial(case):
    """Whether a case has a reply that the interpreter does not know."""
    return any(reply.startswith("FF") for reply in case.replies)


def same(name, ours, theirs):
    """Compares two programs' replies to a job; each is given as the program and its replies."""
    (one, known), (other, came) = ours, theirs
    for number, (expected, reply) in enumerate(zip_longest(known, came, fillvalue="none"), 1):
        if expected != reply:
            raise Differ(f"{name}, reply {number}: {expected} by {one.label}, {reply} by {other.label}")


def compare(programs):
    """Compares the replies of programs, one with all others; what was compared, in words."""
    kept = {name: case.job for name, case in cases() if not has_denial(case)}
    denied = sum(has_denial(case) for _, case in cases())
    works = {f"job {name}": job(name, RUNS) for name in JOBS}
    first, *others = programs
    for name, work in {**works, **kept}.items():
        known = replies(first, work)
        for other in others:
            same(name, (first, known), (other, replies(other, work)))
    return (f"{len(programs)} programs give the same replies to {len(works)} jobs and {len(kept)} cases; "
            f"{denied} cases are left out, since they have denials.")
