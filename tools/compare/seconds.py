"""The seconds of each crate's check, from nothing.

`rt check` begins with what checks in other checkouts on the machine kept, in a folder beside the kit. So the check is run by a
kit of its own: copies of its scripts, and links to all else, in a new folder, where nothing is kept. `rt` says where it begins
with what a check kept: then the time would be worth nothing, and the work stops.
"""

import os
import shutil
import subprocess
import sys
import tempfile
import time

from .report import table
from .snapshot import Unreadable, archive

KEPT = "begins with what a check kept"


def dependencies(folder):
    """The crates of crates.txt and those of them that each uses."""
    found = {}
    with open(f"{folder}/crates.txt", encoding="utf-8") as it:
        for line in it:
            head, colon, uses = line.split("#")[0].partition(":")
            if colon:
                found[head.split()[0]] = uses.split()
    return {name: [it for it in uses if it in found] for name, uses in found.items()}


def in_order(uses):
    """The crates, each after those that it uses."""
    order = []
    while len(order) < len(uses):
        ready = [it for it in uses if it not in order and all(dep in order for dep in uses[it])]
        if not ready:
            raise Unreadable("crates.txt: crates use one another in a circle")
        order += ready
    return order


def kit_of_its_own(folder):
    """A kit in this folder that has kept nothing, and the path of its rt."""
    rt = shutil.which("rt")
    if not rt:
        raise Unreadable("--seconds needs rt in the PATH")
    kit = os.path.dirname(os.path.dirname(os.path.realpath(rt)))
    os.makedirs(f"{folder}/kit/bin")
    for name in os.listdir(kit):
        if name != "bin":
            os.symlink(f"{kit}/{name}", f"{folder}/kit/{name}")
    for name in os.listdir(f"{kit}/bin"):
        path = f"{kit}/bin/{name}"
        with open(path, "rb") as it:
            is_script = it.read(2) == b"#!" or name.endswith(".py")
        (shutil.copy if is_script else os.symlink)(path, f"{folder}/kit/bin/{name}")
    return f"{folder}/kit/bin/rt"


def run(rt, verb, crate, folder):
    ran = subprocess.run([rt, verb], cwd=f"{folder}/crates/{crate}", stdout=subprocess.PIPE, stderr=subprocess.STDOUT, universal_newlines=True)
    if ran.returncode:
        raise Unreadable(f"rt {verb} in {crate}: {' / '.join(ran.stdout.strip().splitlines()[-3:])}")
    return ran.stdout


def timed(commit, only):
    """The seconds of each crate's check at a commit, one after another; only: the crates that are wanted, or none for all."""
    seconds = {}
    with tempfile.TemporaryDirectory(prefix="changes-") as folder:
        rt = kit_of_its_own(folder)
        with archive(commit) as packed:
            packed.extractall(f"{folder}/repository")
        uses = dependencies(f"{folder}/repository")
        wanted = set(only or uses)
        for crate in reversed(in_order(uses)):
            wanted.update(uses[crate] if crate in wanted else [])
        for crate in [it for it in in_order(uses) if it in wanted]:
            begun = time.monotonic()
            said = run(rt, "check", crate, f"{folder}/repository")
            seconds[crate] = time.monotonic() - begun
            if KEPT in said:
                raise Unreadable(f"rt check in {crate} did not begin from nothing")
            print(f"{commit[:7]} {crate}: {seconds[crate]:.0f} s", file=sys.stderr)
            if os.path.exists(f"{folder}/repository/crates/{crate}/src/lib.rt"):
                run(rt, "lib", crate, f"{folder}/repository")
    return seconds


def report(old, new, only):
    """A table with a row for each crate: its seconds before and after."""
    load = os.getloadavg()[0]
    before, after = timed(old, only), timed(new, only)
    if not before and not after:
        raise Unreadable("neither commit has a crate of that name")
    show = lambda it: "" if it is None else f"{it:.0f}"
    rows = [[crate, show(before.get(crate)), show(after.get(crate))] for crate in {**before, **after}]
    rows.append(["all", show(sum(before.values())), show(sum(after.values()))])
    busy = f"\n\nThe machine was at work on something else (load {load:.1f}), so these seconds say little." if load > 1 else ""
    return table(["Seconds of a check from nothing", old[:7], new[:7]], rows) + busy
