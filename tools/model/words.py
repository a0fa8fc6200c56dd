"""Words of 32 bits."""

MASK = 0xFFFFFFFF


def bits(word, high, low):
    """The bits from high down to low."""
    return word >> low & (1 << high - low + 1) - 1


def bit(word, number):
    """One bit."""
    return word >> number & 1


def signed(word):
    """The number that a word stands for in two's complement."""
    return word - (1 << 32) if bit(word, 31) else word


def extended(value, width):
    """A value of so many bits, its sign extended to a word."""
    sign = 1 << width - 1
    return ((value ^ sign) - sign) & MASK
