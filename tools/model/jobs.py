"""Jobs, after docs/JOBS.md; core and book run beside one another."""

from . import bus
from .book import Book
from .core import Core

LONGEST = 65_536
LIMIT = 2 ** 62

# The widths of the fields behind each kind, and the kinds that want a core.
KINDS = {b"10": [8, 8], b"20": [], b"30": [2], b"40": [4], b"50": [2]}
CALLS = (b"30", b"40", b"50")


class Denied(Exception):
    """A denial: its number, and the address of a refused load."""

    def __init__(self, number, address=0):
        super().__init__(number, address)
        self.number = number
        self.address = address


class Apart(Exception):
    """Core and book differ."""


class Beside:
    """A core and the book that goes with it, compared at every boundary."""

    def __init__(self, pile, watch):
        self.core = Core(pile, watch)
        self.book = Book(pile.regions())
        self.lengths = 0

    def clock(self):
        if self.core.clock():
            self.lengths += self.book.step(self.core.lines)
            self.compare()

    def compare(self):
        """Registers without DT, ledger, bytes and the sum of lengths are the same."""
        core, book = self.core, self.book
        pairs = {
            "registers": ([core.register(number) for number in range(41)], book.registers()),
            "ledger": (core.ledger, book.ledger),
            "bytes": (core.pile.regions(), book.memory.regions),
            "cycles": (core.cycles, core.frozen + self.lengths),
        }
        for what, (one, other) in pairs.items():
            if one != other:
                raise Apart(f"{what} differ at boundary {core.boundaries}: core {one}, book {other}")


def parse(line):
    """The kind of a line and its fields."""
    if not line or set(line) - set(b"0123456789ABCDEF "):
        raise Denied(2)
    kind, *fields = line.split(b" ")
    if not kind or b"" in fields:
        raise Denied(2)
    if kind not in KINDS:
        raise Denied(3)
    if [len(field) for field in fields] != KINDS[kind]:
        raise Denied(2)
    return kind, [int(field, 16) for field in fields]


class Job:
    """A job at work on a pile."""

    def __init__(self, watch=None):
        self.pile = bus.job_pile()
        self.watch = watch
        self.beside = None

    def answer(self, line):
        """What a line is answered, if it is not denied."""
        kind, fields = parse(line)
        if (kind in CALLS) != (self.beside is not None):
            raise Denied(5 if kind in CALLS else 4)
        act = {b"10": self.load, b"20": self.start, b"30": self.lines, b"40": self.run, b"50": self.show}[kind]
        return act(*fields)

    def load(self, address, word):
        if bus.settle(self.pile, bus.Request("word", address, word)) is bus.BUS_ERROR:
            raise Denied(10, address)
        return "10"

    def start(self):
        self.beside = Beside(self.pile, self.watch)
        return "20"

    def lines(self, value):
        if value > 127:
            raise Denied(8)
        self.beside.core.lines = value
        return "30"

    def run(self, count):
        core = self.beside.core
        if count == 0:
            raise Denied(8)
        if core.cycles + count > LIMIT:
            raise Denied(9)
        for _ in range(count):
            self.beside.clock()
        return f"40 {core.cycles:016X} {core.frozen:016X} {core.boundaries:016X}"

    def show(self, number):
        if number > 41:
            raise Denied(8)
        return f"50 {number:02X} {self.beside.core.register(number):08X}"


def cut(job):
    """The lines of a job."""
    lines = job.split(b"\n")
    return lines[:-1] if lines[-1] == b"" else lines


def replies(job, at_work=None):
    """The replies to a job, one by one."""
    if len(job) > LONGEST:
        yield "FF 01 00000000 00000000"
        return
    at_work = at_work or Job()
    for number, line in enumerate(cut(job), 1):
        try:
            yield at_work.answer(line)
        except Denied as denied:
            yield f"FF {denied.number:02X} {number:08X} {denied.address:08X}"
