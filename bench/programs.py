"""The programs that are measured: where they are, how the interpreter is built, and what a program replies."""

import os
import shutil
import subprocess
from collections import namedtuple
from pathlib import Path

from model.rows import LISTED, ROWS

HERE = Path(__file__).resolve().parent

COMPILERS = ["gcc", "clang"]

# The two ways to build the interpreter: as it stands, and with code for each listed row.
WAYS = {"plain C": [], "C by row": ["-DBY_ROW"]}

# The proved program is built for the same processors.
FLAGS = ["-O3", "-march=x86-64-v2", "-std=c11", "-Wall", "-Wextra"]

FIELDS = ["opx", "opy", "alu", "res", "adrw", "excp", "seq"]

Program = namedtuple("Program", "label path")


class Failed(Exception):
    """Why the work cannot go on, in words."""


def proved(told, default):
    """The programs runjob that the command line names as LABEL=PATH or PATH, or the one of this repository."""
    programs = []
    for text in told or [str(default)]:
        label, mark, path = text.partition("=")
        program = Program(f"runjob {label}", Path(path)) if mark else Program("runjob", Path(text))
        if not os.access(program.path, os.X_OK) or program.path.is_dir():
            raise Failed(f"{program.path} is no program; this proves and builds runjob, typed at the top of the "
                         "repository: ( cd crates/runjob && rt run <stdin )")
        if program.label in [other.label for other in programs]:
            raise Failed(f"two programs are called {program.label}; --runjob LABEL=PATH gives them labels")
        programs.append(program._replace(path=program.path.resolve()))
    return programs


def initializer(row):
    """A row as C writes it."""
    names = [f"{field}_{getattr(row, field)}".upper().replace("-", "NONE") for field in FIELDS]
    return f"{{{', '.join(names)}, {row.amic}}},\n"


def arm(address):
    """The case of a row, as C writes it."""
    return f"case {address}: cycle_in(core, memory, &rows[{address}]); return;\n"


def interpreters(folder):
    """The interpreter, built in a folder in each way by each compiler that is there."""
    (folder / "rows.h").write_text("".join(initializer(row) for row in ROWS))
    (folder / "arms.h").write_text("".join(arm(address) for address in LISTED))
    found = [compiler for compiler in COMPILERS if shutil.which(compiler)]
    if not found:
        raise Failed("neither gcc nor clang is there to build the interpreter")
    return [build(way, compiler, folder) for way in WAYS for compiler in found]


def build(way, compiler, folder):
    """The interpreter, built in one way by one compiler. Its warnings go to standard error."""
    path = folder / f"{way}, {compiler}".replace(", ", "-").replace(" ", "-")
    command = [compiler, *FLAGS, *WAYS[way], "-I", str(folder), str(HERE / "interpreter.c"), "-o", str(path)]
    if subprocess.run(command).returncode:
        raise Failed(f"{compiler} does not build the interpreter")
    return Program(f"{way}, {compiler}", path)


def sources_since(program):
    """Whether a source of the crates is newer than a program."""
    built = program.path.stat().st_mtime
    return any(source.stat().st_mtime > built for source in (HERE.parent / "crates").glob("*/src/**/*.rt"))


def replies(program, job):
    """What a program replies to a job: the lines."""
    try:
        ran = subprocess.run([program.path], input=job, stdout=subprocess.PIPE, stderr=subprocess.PIPE)
    except OSError as why:
        raise Failed(f"{program.label} cannot be run: {why}") from None
    if ran.returncode:
        said = ran.stderr.decode(errors="replace").strip() or "no message"
        raise Failed(f"{program.label} ended with status {ran.returncode}: {said}")
    return ran.stdout.decode(errors="replace").split("\n")[:-1]


def first_line(command):
    """The first line that a command prints."""
    ran = subprocess.run(command, stdout=subprocess.PIPE, universal_newlines=True)
    return ran.stdout.split("\n")[0]


def processor():
    """The processor's name."""
    try:
        for line in Path("/proc/cpuinfo").read_text().splitlines():
            if line.startswith("model name"):
                return line.partition(":")[2].strip()
    except OSError:
        pass
    return "processor without a name"


def machine():
    """The machine and the versions of what was used, in one line."""
    tools = [tool for tool in [*COMPILERS, "valgrind"] if shutil.which(tool)]
    return "; ".join([processor(), *(first_line([tool, "--version"]) for tool in tools)])
