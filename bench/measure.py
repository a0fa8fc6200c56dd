"""Host instructions a cycle, user seconds, and tables of both."""

import re
import resource
import shutil
import statistics
import subprocess
import sys

from agree import same
from jobs import JOBS, RUN, job
from programs import Failed

# The runs of the longer job whose host instructions are counted; the shorter one has one run.
COUNTED_RUNS = 9

# The runs of a job that is timed: 131 million cycles.
TIMED_RUNS = 2000

TOTAL = re.compile(r"^(?:totals|summary): (\d+)", re.MULTILINE)


def table(measure, columns, cells):
    """A table in Markdown: a row for each job, a column for each program."""
    head = [[measure, *columns], ["---", *["---:"] * len(columns)]]
    rows = [[name, *row] for name, row in cells.items()]
    return "\n".join("| " + " | ".join(row) + " |" for row in head + rows)


def say(text):
    """Says how far the work is."""
    print(text, file=sys.stderr, flush=True)


def host_instructions(program, work, folder):
    """How many instructions of the host a program takes for a job."""
    counts = folder / "callgrind.out"
    command = ["valgrind", "--tool=callgrind", f"--callgrind-out-file={counts}", str(program.path)]
    ran = subprocess.run(command, input=work, stdout=subprocess.DEVNULL, stderr=subprocess.PIPE)
    total = TOTAL.search(counts.read_text()) if counts.exists() else None
    if ran.returncode or not total:
        raise Failed(f"valgrind with {program.label}: {ran.stderr.decode(errors='replace').strip()}")
    counts.unlink()
    return int(total[1])


def instructions_a_cycle(program, name, folder):
    """Of the cycles that a longer job has more than a shorter one, so that start and end count for nothing."""
    longer, shorter = (host_instructions(program, job(name, runs), folder) for runs in (COUNTED_RUNS, 1))
    return (longer - shorter) / ((COUNTED_RUNS - 1) * RUN)


def count_table(programs, folder):
    """The table of host instructions a cycle."""
    if not shutil.which("valgrind"):
        raise Failed("valgrind is not there; --no-count does without it")
    cells = {}
    for name in JOBS:
        say(f"counting: {name}")
        cells[name] = [f"{instructions_a_cycle(program, name, folder):.1f}" for program in programs]
    return table("Host instructions a cycle", [program.label for program in programs], cells)


def timed(program, given, taken):
    """The user seconds of a program for the job in a file; its replies go to another."""
    before = resource.getrusage(resource.RUSAGE_CHILDREN).ru_utime
    with given.open("rb") as job_file, taken.open("wb") as reply_file:
        status = subprocess.run([program.path], stdin=job_file, stdout=reply_file).returncode
    if status:
        raise Failed(f"{program.label} ended with status {status}")
    return resource.getrusage(resource.RUSAGE_CHILDREN).ru_utime - before


def turn(programs, name, folder):
    """The seconds of each program for a job, one after another; their replies are compared."""
    given, taken = folder / "job", folder / "replies"
    given.write_bytes(job(name, TIMED_RUNS))
    seconds, known = [], None
    for program in programs:
        seconds.append(timed(program, given, taken))
        came = taken.read_text().split("\n")
        known = known or (program, came)
        same(f"job {name}", known, (program, came))
    return seconds


def time_tables(programs, tries, folder):
    """The tables of user seconds, of speeds, and of how runjob compares with the fastest plain interpreter.

    The programs take turns, so that what else the machine does hits all of them alike.
    """
    turns = {name: [] for name in JOBS}
    for number in range(1, tries + 1):
        for name in JOBS:
            say(f"timing, try {number} of {tries}: {name}")
            turns[name].append(turn(programs, name, folder))
    seconds = {name: list(zip(*turns[name])) for name in JOBS}
    return "\n\n".join(measure(programs, seconds) for measure in (seconds_table, speed_table, ratio_table))


def best_and_middle(tries, number, form):
    """What a number is by the best of some tries, and in parentheses by the middle one."""
    return f"{number(min(tries)):{form}} ({number(statistics.median(tries)):{form}})"


def seconds_table(programs, seconds):
    """The user seconds of each job and program."""
    cells = {name: [best_and_middle(tries, float, ".2f") for tries in row] for name, row in seconds.items()}
    measure = f"User seconds of {TIMED_RUNS * RUN:,} cycles: best (middle)"
    return table(measure, [program.label for program in programs], cells)


def speed(seconds):
    """Millions of cycles a second."""
    return TIMED_RUNS * RUN / 1e6 / seconds


def speed_table(programs, seconds):
    """The speeds that follow from the seconds."""
    cells = {name: [best_and_middle(tries, speed, ".1f") for tries in row] for name, row in seconds.items()}
    return table("Millions of cycles a second: best (middle)", [program.label for program in programs], cells)


def ratios(row, proved, plain):
    """How many times as fast as the fastest plain interpreter each proved program is: by the best tries, the middle."""
    found = []
    others = [row[place] for place in plain]
    for place in proved:
        best, middle = (min(map(of, others)) / of(row[place]) for of in (min, statistics.median))
        found.append(f"{best:.2f} ({middle:.2f})")
    return found


def ratio_table(programs, seconds):
    """How many times as fast as the fastest plain interpreter each runjob is."""
    proved, plain = ([place for place, program in enumerate(programs) if program.label.startswith(kind)]
                     for kind in ("runjob", "plain C"))
    cells = {name: ratios(row, proved, plain) for name, row in seconds.items()}
    measure = "Times as fast as the fastest plain interpreter: best (middle)"
    return table(measure, [programs[place].label for place in proved], cells)
