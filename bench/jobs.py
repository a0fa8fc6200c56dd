"""The jobs to measure by, and an assembler of only the instructions that they have (docs/BOOK.md, docs/JOBS.md).

The functions lui to mtc0 give the word of an instruction, with its operands in the order of an assembler.
"""

# Cycles of a run: the most that one line can ask for.
RUN = 0xFFFF

START = 0xBFC00000
HANDLER = 0x80000080

SR = 12
EPC = 14

SYSCALL = 12


def immediate(opcode, rs, rt, number):
    """The word of an instruction with a number of 16 bits."""
    return opcode << 26 | rs << 21 | rt << 16 | number & 0xFFFF


def lui(rt, number):
    return immediate(15, 0, rt, number)


def addiu(rt, rs, number):
    return immediate(9, rs, rt, number)


def ori(rt, rs, number):
    return immediate(13, rs, rt, number)


def lw(rt, offset, rs):
    return immediate(35, rs, rt, offset)


def sw(rt, offset, rs):
    return immediate(43, rs, rt, offset)


def bne(rs, rt, words):
    return immediate(5, rs, rt, words)


def j(address):
    return 2 << 26 | address >> 2 & 0x3FFFFFF


def addu(rd, rs, rt):
    return rs << 21 | rt << 16 | rd << 11 | 33


def jr(rs):
    return rs << 21 | 8


def mfc0(rt, number):
    return 0x40000000 | rt << 16 | number << 11


def mtc0(rt, number):
    return 0x40800000 | rt << 16 | number << 11


# A load, a sum, a store and a count in memory at 80000200.
LOADS = {
    START: [
        lui(1, 0x8000),
        addiu(2, 0, 3),
        lw(3, 0x200, 1),
        addu(3, 3, 2),
        sw(3, 0x200, 1),
        addiu(4, 4, 1),
        j(START + 8),
    ],
}

# Sums alone, and the branch back.
ADDS = {
    START: [
        addiu(2, 0, 3),
        addu(3, 3, 2),
        addiu(4, 4, 1),
        addu(5, 4, 3),
        bne(4, 0, -4),
    ],
}

# The line IT0 is up all the time. The handler shuts it out, and the main loop lets it in again: else each way back
# would be interrupted at once, and the main loop would stand. So each round of it has one interrupt.
INTERRUPTS = {
    START: [
        ori(1, 0, 0x0401),
        mtc0(1, SR),
        addiu(2, 2, 1),
        j(START + 4),
    ],
    HANDLER: [
        addiu(3, 3, 1),
        ori(27, 0, 0x0001),
        mfc0(26, EPC),
        mtc0(27, SR),
        jr(26),
    ],
}

# An exception again and again: the cycles from its fault to its entry have a flag up.
EXCEPTIONS = {
    START: [
        SYSCALL,
        j(START),
    ],
    HANDLER: [
        mfc0(26, EPC),
        addiu(26, 26, 4),
        jr(26),
    ],
}

# The name of each job, its words, and the lines that are up.
JOBS = {
    "loads": (LOADS, 0x00),
    "adds": (ADDS, 0x00),
    "interrupts": (INTERRUPTS, 0x01),
    "exceptions": (EXCEPTIONS, 0x00),
}

# General registers 2 to 5, PC, SR, CR and EPC.
SHOWN = [0x02, 0x03, 0x04, 0x05, 0x20, 0x23, 0x24, 0x25]


def job(name, runs):
    """The bytes of a job with so many runs."""
    words, up = JOBS[name]
    lines = [f"10 {base + 4 * place:08X} {word:08X}" for base in words for place, word in enumerate(words[base])]
    lines += ["20", f"30 {up:02X}"]
    lines += [f"40 {RUN:04X}"] * runs
    lines += [f"50 {number:02X}" for number in SHOWN]
    return "".join(f"{line}\n" for line in lines).encode()
