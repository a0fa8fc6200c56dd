"""The instruction book, one step at a time, after docs/BOOK.md.

It shares only words.py with the core: what an instruction does is written here anew.
"""

from .words import MASK, bit, bits, extended, signed

CODES = {"ADEL": 4, "ADES": 5, "IBE": 6, "DBE": 7, "SYS": 8, "BRK": 9, "RI": 10, "CPU": 11, "OVF": 12}

LINK = 31

FUNCTIONS = {
    0: "SLL", 2: "SRL", 3: "SRA", 4: "SLLV", 6: "SRLV", 7: "SRAV", 8: "JR", 9: "JALR", 12: "SYSCALL", 13: "BREAK",
    16: "MFHI", 17: "MTHI", 18: "MFLO", 19: "MTLO", 24: "MULT", 25: "MULTU", 26: "DIV", 27: "DIVU",
    32: "ADD", 33: "ADDU", 34: "SUB", 35: "SUBU", 36: "AND", 37: "OR", 38: "XOR", 39: "NOR", 42: "SLT", 43: "SLTU",
}

OPCODES = {
    2: "J", 3: "JAL", 4: "BEQ", 5: "BNE", 6: "BLEZ", 7: "BGTZ", 8: "ADDI", 9: "ADDIU", 10: "SLTI", 11: "SLTIU",
    12: "ANDI", 13: "ORI", 14: "XORI", 15: "LUI", 32: "LB", 33: "LH", 35: "LW", 36: "LBU", 37: "LHU",
    40: "SB", 41: "SH", 43: "SW",
}

CONDITIONS = [["BLTZ", "BGEZ"], ["BLTZAL", "BGEZAL"]]

# The system registers that MFC0 and MTC0 know, by number.
SYSTEM = {8: "bar", 12: "sr", 13: "cr", 14: "epc"}


def decode(ir):
    """The name of the instruction."""
    opcode = bits(ir, 31, 26)
    if opcode == 0:
        return FUNCTIONS.get(bits(ir, 5, 0), "illegal function")
    if opcode == 1:
        return CONDITIONS[bit(ir, 20)][bit(ir, 16)]
    if opcode == 16:
        return "RFE" if bit(ir, 25) else "MTC0" if bit(ir, 23) else "MFC0"
    return OPCODES.get(opcode, "illegal opcode")


class Memory:
    """The bytes of memory. A word that lies in none of the regions is refused."""

    def __init__(self, regions):
        self.regions = [(base, bytearray(content)) for base, content in regions]

    def at(self, address):
        """The region of an address and its place there, or none where its word is refused."""
        for base, content in self.regions:
            if base <= address < base + len(content):
                return content, address - base
        return None, None

    def read(self, address, width):
        """The number at an address, its lowest byte first, or none where the word is refused."""
        content, place = self.at(address)
        return None if content is None else int.from_bytes(content[place:place + width], "little")

    def write(self, address, width, value):
        """Writes the low bytes of a value; whether the word is there."""
        content, place = self.at(address)
        if content is None:
            return False
        content[place:place + width] = (value & (1 << 8 * width) - 1).to_bytes(width, "little")
        return True


class Book:
    """The machine as firmware sees it. Memory's bytes are those at power-up."""

    def __init__(self, regions):
        self.memory = Memory(regions)
        self.general = [0] * 32
        self.pc = self.hi = self.lo = self.sr = self.cr = self.epc = self.bar = self.ad = self.ir = 0
        self.ledger = [(0, 0)] * 16
        self.lines = 0
        self.event = "reset"
        self.fault = None

    # A step

    def step(self, lines):
        """One step, with the lines at the boundary that ends it; its length in cycles."""
        before, self.fault = self.sr, None
        length = {"reset": self.reset, "run": self.run}.get(self.event, self.enter)()
        writes_sr = self.event == "run" and self.moves_to_sr()
        if self.fault is None:
            self.fetch()
        self.event = self.following(lines, before if writes_sr else self.sr)
        self.lines = lines
        return length

    def moves_to_sr(self):
        """Whether IR has MTC0 to SR."""
        return decode(self.ir) == "MTC0" and bits(self.ir, 14, 11) == 12

    def fetch(self):
        """The word at PC comes into IR."""
        word = self.memory.read(self.pc, 4)
        if word is None:
            self.fault = "IBE"
        else:
            self.ir = word

    def following(self, lines, sr):
        """The next event."""
        if bit(lines, 6):
            return "reset"
        if self.fault:
            return self.fault
        if bit(sr, 0) and bits(sr, 15, 10) & bits(lines, 5, 0):
            return "interrupt"
        return "run"

    def reset(self):
        self.pc, self.sr = 0xBFC00000, 0
        return 3

    def enter(self):
        """Enters an exception or an interrupt."""
        code = CODES.get(self.event, 0)
        self.sr = self.sr & ~0x3F | self.sr << 2 & 0x3F
        self.cr = self.cr & ~0x3F | 4 * code
        self.epc = self.pc if self.event == "interrupt" else self.pc - 4 & MASK
        self.ledger[code] = self.ledger[code][0] + 1, self.epc
        self.pc = 0x80000080
        self.bar = self.ad
        return 4

    def run(self):
        """The instruction in IR acts."""
        self.pc = self.pc + 4 & MASK
        name = decode(self.ir)
        return ACTS[name](self, name)

    # What instructions are made of

    def registers(self):
        """All registers by their numbers, without DT; CR as it is read."""
        special = [self.pc, self.hi, self.lo, self.sr, self.cr_as_read(), self.epc, self.bar, self.ad, self.ir]
        return self.general + special

    def cr_as_read(self):
        return self.cr & ~0xFC00 | bits(self.lines, 5, 0) << 10

    def user(self):
        return bit(self.sr, 1) == 1

    @property
    def rs(self):
        return self.general[bits(self.ir, 25, 21)]

    @property
    def rt(self):
        return self.general[bits(self.ir, 20, 16)]

    @property
    def imm(self):
        return bits(self.ir, 15, 0)

    @property
    def ext(self):
        return extended(self.imm, 16)

    def set(self, register, value):
        """Writes a general register, if it is not 0."""
        if register:
            self.general[register] = value & MASK

    def set_rd(self, value):
        self.set(bits(self.ir, 15, 11), value)

    def set_rt(self, value):
        self.set(bits(self.ir, 20, 16), value)

    def misplaced(self, address, multiple):
        """Whether an address is no such multiple, or out of bounds for user mode."""
        return address % multiple != 0 or self.user() and bit(address, 31) == 1

    def go(self, target):
        """Tests a target, and goes there."""
        self.ad = target & MASK
        if self.misplaced(self.ad, 4):
            self.fault = "ADEL"
        else:
            self.pc = self.ad


# Instructions: each function acts, and gives the length.


def shifted(name, word, count):
    """A word shifted, as an instruction's name says."""
    if name.startswith("SLL"):
        return word << count
    return (word if name.startswith("SRL") else signed(word)) >> count


def shift(book, name):
    book.set_rd(shifted(name, book.rt, bits(book.ir, 10, 6)))
    return 3


def shift_by_register(book, name):
    book.ad = book.rs
    book.set_rd(shifted(name, book.rt, bits(book.rs, 4, 0)))
    return 4


def jump_to_register(book, name):
    if name == "JALR":
        book.set_rd(book.pc)
    book.go(book.rs)
    return 6 if name == "JALR" else 5


def jump(book, name):
    if name == "JAL":
        book.set(LINK, book.pc)
    book.go(book.pc & 0xF0000000 | 4 * bits(book.ir, 25, 0))
    return 5 if name == "JAL" else 4


def meets(fault, length):
    """An instruction that only meets a fault."""
    def act(book, _name):
        book.fault = fault
        return length
    return act


def move(book, name):
    """MFHI, MFLO, MTHI, MTLO."""
    register = name[2:].lower()
    if name.startswith("MF"):
        book.set_rd(getattr(book, register))
    else:
        setattr(book, register, book.rs)
    return 3


def multiply(book, name):
    x, y = (book.rs, book.rt) if name == "MULTU" else (signed(book.rs), signed(book.rt))
    book.lo, book.hi = x * y & MASK, x * y >> 32 & MASK
    book.ad = book.rt
    return 5


def divide(book, name):
    """Cut toward zero; a divisor 0 gives FFFFFFFF and the dividend."""
    x, y = (book.rs, book.rt) if name == "DIVU" else (signed(book.rs), signed(book.rt))
    if y == 0:
        quotient = -1
    else:
        quotient = abs(x) // abs(y) * (1 if (x < 0) == (y < 0) else -1)
    book.lo, book.hi = quotient & MASK, x - quotient * y & MASK
    book.ad = book.rt
    return 5


def add_or_sub(book, name):
    x, y = signed(book.rs), signed(book.rt)
    result = x - y if name == "SUB" else x + y
    book.ad = result & MASK
    if signed(book.ad) == result:
        book.set_rd(result)
    else:
        book.fault = "OVF"
    return 5


def reckon(name, x, y):
    """Sums, bit by bit operations and comparisons."""
    return {
        "ADDU": x + y, "SUBU": x - y, "AND": x & y, "OR": x | y, "XOR": x ^ y, "NOR": ~(x | y),
        "SLT": int(signed(x) < signed(y)), "SLTU": int(x < y),
    }[name]


def register_operation(book, name):
    y = book.rt
    book.set_rd(reckon(name, book.rs, y))
    book.ad = y
    return 4


def immediate_operation(book, name):
    logical = name in ("ANDI", "ORI", "XORI")
    book.ad = book.imm if logical else book.ext
    plain = {"ADDIU": "ADDU", "SLTI": "SLT", "SLTIU": "SLTU"}.get(name, name[:-1])
    book.set_rt(reckon(plain, book.rs, book.ad))
    return 3


def addi(book, _name):
    result = signed(book.rs) + signed(book.ext)
    book.ad = result & MASK
    if signed(book.ad) == result:
        book.set_rt(result)
    else:
        book.fault = "OVF"
    return 4


def lui(book, _name):
    book.ad = book.imm
    book.set_rt(book.imm << 16)
    return 3


def branch(book, taken):
    """Branches where the condition holds; two cycles longer then."""
    if taken:
        book.go(book.pc + 4 * signed(book.ext))
    return 2 if taken else 0


def branch_on_equal(book, name):
    book.ad = book.rt
    return 4 + branch(book, (book.rs == book.rt) == (name == "BEQ"))


def branch_on_sign(book, name):
    number = signed(book.rs)
    return 3 + branch(book, number <= 0 if name == "BLEZ" else number > 0)


def branch_below_zero(book, name):
    link = name.endswith("AL")
    if link:
        book.set(LINK, book.pc)
    negative = signed(book.rs) < 0
    return (5 if link else 4) + branch(book, negative == name.startswith("BLTZ"))


def system_move(book, name):
    """MFC0 and MTC0."""
    register = SYSTEM.get(bits(book.ir, 14, 11))
    if book.user():
        book.fault = "CPU"
    elif register is None:
        book.fault = "RI"
    elif name == "MTC0":
        setattr(book, register, book.rt)
    else:
        book.set_rt(book.cr_as_read() if register == "cr" else getattr(book, register))
    return 4 if register else 5


def rfe(book, _name):
    if book.user():
        book.fault = "CPU"
    else:
        book.sr = book.sr & ~0xF | bits(book.sr, 5, 2)
    return 4


WIDTHS = {"LB": 1, "LBU": 1, "LH": 2, "LHU": 2, "LW": 4, "SB": 1, "SH": 2, "SW": 4}


def load(book, name):
    width = WIDTHS[name]
    address = book.ad = book.rs + book.ext & MASK
    word = book.memory.read(address & ~3, 4)
    if book.misplaced(address, width):
        book.fault = "ADEL"
    elif word is None:
        book.fault = "DBE"
    else:
        value = word >> 8 * (address & 3) & (1 << 8 * width) - 1
        if width < 4:
            book.ad = word << 32 - 8 * (address & 3) - 8 * width & MASK
        book.set_rt(value if name.endswith("U") else extended(value, 8 * width))
    return 4 if width == 4 else 5


def store(book, name):
    width = WIDTHS[name]
    book.ad = book.rs + book.ext & MASK
    if book.misplaced(book.ad, width):
        book.fault = "ADES"
    elif not book.memory.write(book.ad, width, book.rt):
        book.fault = "DBE"
    return 4


def acts():
    """What each instruction does, by its name."""
    groups = {
        shift: "SLL SRL SRA", shift_by_register: "SLLV SRLV SRAV", jump_to_register: "JR JALR", jump: "J JAL",
        move: "MFHI MFLO MTHI MTLO", multiply: "MULT MULTU", divide: "DIV DIVU", add_or_sub: "ADD SUB",
        register_operation: "ADDU SUBU AND OR XOR NOR SLT SLTU",
        immediate_operation: "ADDIU SLTI SLTIU ANDI ORI XORI", addi: "ADDI", lui: "LUI",
        branch_on_equal: "BEQ BNE", branch_on_sign: "BLEZ BGTZ", branch_below_zero: "BLTZ BGEZ BLTZAL BGEZAL",
        system_move: "MFC0 MTC0", rfe: "RFE", load: "LB LBU LH LHU LW", store: "SB SH SW",
    }
    table = {name: function for function, names in groups.items() for name in names.split()}
    table.update({"SYSCALL": meets("SYS", 4), "BREAK": meets("BRK", 4)})
    table.update({"illegal function": meets("RI", 4), "illegal opcode": meets("RI", 3)})
    return table


ACTS = acts()
