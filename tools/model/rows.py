"""The rows of the microprogram and the operation box, after docs/CORE.md."""

from collections import namedtuple
from pathlib import Path

from .words import MASK, signed

Row = namedtuple("Row", "name opx opy alu res adrw excp seq amic")

# What every address holds that is not listed: an illegal code, followed by row 15.
UNLISTED = Row("unlisted", "C0", "C0", "SUM", "-", "-", "RI", "NEXT", 15)


def listed():
    """The listed rows by their addresses."""
    rows = {}
    for line in Path(__file__).with_name("rows.txt").read_text().splitlines():
        if not line.startswith("#"):
            address, *fields, amic = line.split()
            rows[int(address)] = Row(*fields, int(amic))
    return rows


LISTED = listed()
ROWS = [LISTED.get(address, UNLISTED) for address in range(1024)]


def shift(x, y, operation):
    """X shifted by the low five bits of Y."""
    count = y & 31
    if operation == "SLL":
        return x << count
    return (signed(x) if operation == "SRA" else x) >> count


def quotient(x, y):
    """The quotient of two numbers, cut toward zero; FFFFFFFF where the divisor is 0."""
    if y == 0:
        return MASK
    magnitude = abs(x) // abs(y)
    return magnitude if (x < 0) == (y < 0) else -magnitude


def remainder(x, y):
    """X - quotient * Y."""
    return x - quotient(x, y) * y


OPERATIONS = {
    "SUM": lambda x, y: x + y,
    "DIF": lambda x, y: x - y,
    "AND": lambda x, y: x & y,
    "OR": lambda x, y: x | y,
    "XOR": lambda x, y: x ^ y,
    "NOR": lambda x, y: ~(x | y),
    "SLL": lambda x, y: shift(x, y, "SLL"),
    "SRL": lambda x, y: shift(x, y, "SRL"),
    "SRA": lambda x, y: shift(x, y, "SRA"),
    "SLTU": lambda x, y: int(x < y),
    "SLT": lambda x, y: int(signed(x) < signed(y)),
    "MUL": lambda x, y: x * y,
    "MUH": lambda x, y: x * y >> 32,
    "MSL": lambda x, y: signed(x) * signed(y),
    "MSH": lambda x, y: signed(x) * signed(y) >> 32,
    "DUQ": lambda x, y: quotient(x, y),
    "DUR": lambda x, y: remainder(x, y),
    "DSQ": lambda x, y: quotient(signed(x), signed(y)),
    "DSR": lambda x, y: remainder(signed(x), signed(y)),
}

# The signed sums and differences, of which only these operations can be ones that no word stands for.
SIGNED = {
    "SUM": lambda x, y: signed(x) + signed(y),
    "DIF": lambda x, y: signed(x) - signed(y),
}


def operate(operation, x, y):
    """RES, and whether a signed overflow came."""
    result = OPERATIONS[operation](x, y) & MASK
    overflow = operation in SIGNED and SIGNED[operation](x, y) != signed(result)
    return result, overflow
