"""The processor, one cycle at a time, after docs/CORE.md."""

from collections import namedtuple

from . import bus
from .rows import ROWS, operate
from .words import MASK, bit, bits, extended

CODES = {"ADEL": 4, "ADES": 5, "IBE": 6, "DBE": 7, "SYS": 8, "BRK": 9, "RI": 10, "CPU": 11, "OVF": 12}

# The special registers by their numbers, from 32 on.
SPECIAL = ["PC", "HI", "LO", "SR", "CR", "EPC", "BAR", "AD", "IR", "DT"]

# Registers that software does not see: a fault in the very cycle does not stop them.
UNSEEN = {"AD", "IR", "DT"}

WRITES = {"WW": "word", "WH": "half", "WB": "byte"}

# The faults of the address tests, and the multiple that the address must be.
ADDRESS_TESTS = {
    "IF": ("ADEL", 4), "LW": ("ADEL", 4), "LH": ("ADEL", 2), "LB": ("ADEL", 1),
    "WW": ("ADES", 4), "WH": ("ADES", 2), "WB": ("ADES", 1),
}

# What a cycle that went through did: its row, the flag before it, the fault that was found, and whether the bus refused.
Went = namedtuple("Went", "row flag found refused")


class Core:
    """A core on a pile, at power-up."""

    def __init__(self, pile, watch=None):
        self.pile = pile
        self.watch = watch
        self.general = [0] * 32
        self.special = dict.fromkeys(SPECIAL, 0)
        self.flag = None
        self.row = 0
        self.lines = 0
        self.boundary_lines = 0
        self.ledger = [(0, 0)] * 16
        self.cycles = self.frozen = self.boundaries = self.place = 0

    def register(self, number):
        """A register as it is shown."""
        if number < 32:
            return self.general[number]
        name = SPECIAL[number - 32]
        return self.read_cr() if name == "CR" else self.special[name]

    def read_cr(self):
        """CR as it is read: with the lines of the last boundary in bits 15-10."""
        return self.special["CR"] & ~0xFC00 | bits(self.boundary_lines, 5, 0) << 10

    def user(self):
        """Whether user mode is on."""
        return bit(self.special["SR"], 1) == 1

    def clock(self):
        """One cycle; whether it ended at a boundary."""
        row = ROWS[self.row]
        result, overflow = operate(row.alu, self.operand_x(row.opx), self.operand_y(row.opy))
        answer = self.access(row.adrw, result)
        self.cycles += 1
        if answer is bus.WAIT:
            self.frozen += 1
            return False
        self.finish(row, result, overflow, answer)
        return row.seq == "RIE"

    def finish(self, row, result, overflow, answer):
        """A cycle that goes through."""
        flag, old_sr = self.flag, self.special["SR"]
        found = self.fault(row.excp, result, overflow, answer)
        if self.watch:
            self.watch(Went(self.row, flag, found, answer is bus.BUS_ERROR))
        if not self.stopped(row, found):
            self.write(row, result)
        if answer is not None and answer is not bus.BUS_ERROR:
            self.receive(row.adrw, answer)
        self.flag = None if row.excp == "CLR" else flag or found
        self.place += 1
        self.row = self.following(row, result, old_sr)

    def access(self, adrw, result):
        """The answer to the row's request; None where it makes none."""
        if adrw == "-" or self.flag:
            return None
        if adrw == "IF":
            request = bus.Request("read", self.special["PC"], 0)
        elif adrw == "LW":
            request = bus.Request("read", self.special["AD"], 0)
        else:
            request = bus.Request(WRITES[adrw], self.special["AD"], result)
        return self.pile.request(request)

    def receive(self, adrw, word):
        """Takes the word that a finished read brings."""
        if adrw == "IF":
            self.special["IR"] = word
        elif adrw == "LW":
            self.special["DT"] = word

    def fault(self, excp, result, overflow, answer):
        """The fault that the row finds, if any."""
        if excp in ADDRESS_TESTS:
            fault, multiple = ADDRESS_TESTS[excp]
            refused = result % multiple or self.user() and bit(result, 31)
            return fault if refused else None
        if excp in ("IBE", "DBE"):
            return excp if answer is bus.BUS_ERROR else None
        if excp in ("SYS", "BRK", "RI"):
            return excp
        if excp == "CPU":
            return excp if self.user() else None
        if excp == "OVF":
            return excp if overflow else None
        return None

    def stopped(self, row, found):
        """Whether the result is not written."""
        if row.excp == "CLR":
            return False
        if self.flag:
            return True
        return found not in (None, "IBE", "DBE") and row.res not in UNSEEN

    def operand_x(self, opx):
        """The operand X."""
        if opx in ("RS", "RT"):
            return self.general[self.named(opx)]
        if opx == "CR":
            return self.read_cr()
        if opx in self.special:
            return self.special[opx]
        if opx == "PC4":
            return self.special["PC"] & 0xF0000000
        return {"C0": 0, "CZ": 0xBFC00000, "CH": 0x0000FFFF}[opx]

    def operand_y(self, opy):
        """The operand Y."""
        ir = self.special["IR"]
        if opy == "I16":
            return extended(bits(ir, 15, 0), 16)
        if opy == "I18":
            return 4 * extended(bits(ir, 15, 0), 16) & MASK
        if opy == "IU28":
            return 4 * bits(ir, 25, 0)
        if opy == "ISH":
            return bits(ir, 10, 6)
        if opy in ("DT", "AD"):
            return self.special[opy]
        return 0x80000080 if opy == "CX" else int(opy[1:])

    def named(self, field):
        """The number of the general register that IR names in a field."""
        low = {"RS": 21, "RT": 16, "RD": 11}[field]
        return bits(self.special["IR"], low + 4, low)

    def write(self, row, result):
        """Writes the result to its destination."""
        if row.res in ("RT", "RD"):
            self.write_general(self.named(row.res), result)
        elif row.res == "R31":
            self.write_general(31, result)
        elif row.res == "ERQ":
            self.enter()
        elif row.res == "RFE":
            sr = self.special["SR"]
            self.special["SR"] = sr & ~0xF | bits(sr, 5, 2)
        elif row.res != "-":
            self.special[row.res] = result
        if row.name in ("epc1", "epc2"):
            self.note(result)

    def write_general(self, number, word):
        """Writes a general register, if it is not 0."""
        if number:
            self.general[number] = word

    def enter(self):
        """The entry: SR's low six bits move left by two, CR gets the code of the flag."""
        sr, cr = self.special["SR"], self.special["CR"]
        self.special["SR"] = sr & ~0x3F | sr << 2 & 0x3F
        self.special["CR"] = cr & ~0x3F | 4 * CODES.get(self.flag, 0)

    def note(self, epc):
        """Notes an entry in the ledger."""
        code = bits(self.special["CR"], 5, 2)
        self.ledger[code] = self.ledger[code][0] + 1, epc

    def following(self, row, result, old_sr):
        """The next row."""
        ir, ad, amic = self.special["IR"], self.special["AD"], row.amic
        negative, zero = bit(result, 31), int(result == 0)
        if row.seq == "RIE":
            return amic & ~7 | self.boundary(old_sr)
        return {
            "NEXT": amic,
            "DECOD": 256 + 4 * bits(ir, 31, 26),
            "SPEC": 512 + 4 * bits(ir, 5, 0),
            "MOVC0": amic & ~15 | bits(ir, 14, 11),
            "COPRO": amic & ~3 | bit(ir, 25) << 1 | bit(ir, 23),
            "BCOND": amic & ~3 | bit(ir, 20) << 1 | bit(ir, 16),
            "AD10": amic & ~3 | bits(ad, 1, 0),
            "AD1": amic & ~1 | bit(ad, 1),
            "UNSI": amic & ~1 | bit(ir, 28),
            "NUL": amic & ~1 | zero,
            "SINUL": amic & ~3 | negative << 1 | zero,
        }[row.seq]

    def boundary(self, old_sr):
        """Reset, interrupt and fault as three bits, at a boundary."""
        self.boundaries += 1
        self.place = 0
        self.boundary_lines = self.lines
        interrupt = bit(old_sr, 0) and bits(old_sr, 15, 10) & bits(self.lines, 5, 0) != 0
        return bit(self.lines, 6) << 2 | int(bool(interrupt)) << 1 | int(self.flag is not None)
