"""What jobs cover: a set of things seen, each a tuple that begins with its sort."""

from .book import decode
from .jobs import Denied, Job, KINDS, replies
from .rows import ROWS

SORTS = {
    "row": "rows that went through",
    "up": "a row with a flag that was up",
    "raised": "a row and the fault that it found",
    "choice": "a boundary's row and the choice there",
    "step": "instructions and entries",
    "fault": "an instruction and a fault that it met",
    "line": "a kind of line, or none, and its denial, or none",
    "shown": "registers shown",
    "lines": "a path (by the accesses of its rows), a cycle of it, and what went up or down just before that",
}

ACCESSES = {"-": "-", "IF": "F", "LW": "L", "WW": "S", "WH": "S", "WB": "S"}


class Seeing(Job):
    """A job at work that notes what it covers."""

    def __init__(self):
        super().__init__(self.went)
        self.seen = set()
        self.path = ""
        self.begun = self.last = 0
        self.step = "power-up"
        self.changes = []

    def answer(self, line):
        kind = line.split(b" ")[0]
        denial = None
        try:
            return super().answer(line)
        except Denied as denied:
            denial = denied.number
            raise
        finally:
            self.seen.add(("line", kind.decode() if kind in KINDS else "none", denial))

    def went(self, went):
        """Notes a cycle that went through."""
        row = ROWS[went.row]
        if not self.path and self.beside.core.boundaries:
            self.begin(went.row)
        self.path += "." if went.flag else ACCESSES[row.adrw]
        self.seen.add(("row", went.row))
        if went.flag:
            self.seen.add(("up", went.row, went.flag))
        elif went.found:
            self.seen.add(("raised", went.row, went.found))
            self.seen.add(("fault", self.step, went.found))
        if row.seq == "RIE":
            self.end(went.row)

    def begin(self, row):
        """Notes which step begins."""
        ir = self.beside.core.special["IR"]
        self.step = decode(ir) if row == 16 else ROWS[row].name
        self.seen.add(("choice", self.last, row))
        self.seen.add(("step", self.step))

    def end(self, row):
        """Notes the path that ends at a boundary, and what changed on it."""
        self.seen.update(("lines", self.path, *change) for change in self.changes)
        self.path, self.changes, self.last = "", [], row
        self.begun = self.beside.core.cycles

    def lines(self, value):
        """Notes what went up or down."""
        core = self.beside.core
        changed = value ^ core.lines
        reply = super().lines(value)
        for what, mask in (("interrupt", 63), ("reset", 64)):
            if changed & mask:
                self.changes.append((core.cycles - self.begun, f"{what} {'up' if value & mask else 'down'}"))
        return reply

    def show(self, number):
        reply = super().show(number)
        self.seen.add(("shown", number))
        return reply


def covered(job):
    """What a job covers."""
    at_work = Seeing()
    for _ in replies(job, at_work):
        pass
    return at_work.seen


def table(jobs):
    """How much of each sort so many jobs cover: lines of text."""
    seen = set().union(*map(covered, jobs))
    for sort, meaning in SORTS.items():
        yield f"{sum(thing[0] == sort for thing in seen):6}  {meaning}"
