"""Memories and layers, after docs/BUS.md."""

from collections import namedtuple

# The action is read, word, half or byte: the last three are writes.
Request = namedtuple("Request", "action address data")

# Answers. The third one, done, is the word that was read, or 0 after a write.
WAIT = "wait"
BUS_ERROR = "bus error"

WIDTHS = {"word": 4, "half": 2, "byte": 1}


class Ram:
    """Bytes at a base, all zero at first."""

    def __init__(self, base, length):
        self.base = base
        self.bytes = bytearray(length)

    def place(self, address):
        """The place of a word's lowest byte, or None outside the range."""
        place = (address & ~3) - self.base
        return place if 0 <= place < len(self.bytes) else None

    def request(self, request):
        place = self.place(request.address)
        if place is None:
            return BUS_ERROR
        if request.action == "read":
            return int.from_bytes(self.bytes[place:place + 4], "little")
        width = WIDTHS[request.action]
        first = place + (request.address & 3 & -width)
        data = request.data & (1 << 8 * width) - 1
        self.bytes[first:first + width] = data.to_bytes(width, "little")
        return 0

    def regions(self):
        """The bytes with their bases."""
        return [(self.base, self.bytes)]


class Split:
    """Addresses below the mark belong to the first memory, all others to the second."""

    def __init__(self, mark, first, second):
        self.mark = mark & ~3
        self.first = first
        self.second = second

    def request(self, request):
        memory = self.first if request.address < self.mark else self.second
        return memory.request(request)

    def regions(self):
        return self.first.regions() + self.second.regions()


class Delay:
    """Answers wait n times before the memory below is asked."""

    def __init__(self, n, below):
        self.n = n
        self.below = below
        self.counted = None
        self.count = 0

    def request(self, request):
        access = request.action, request.address
        if access != self.counted:
            self.counted, self.count = access, self.n
        if self.count > 0:
            self.count -= 1
            return WAIT
        answer = self.below.request(request)
        if answer is not WAIT:
            self.counted = None
        return answer

    def regions(self):
        return self.below.regions()


def job_pile():
    """The pile that jobs run on, with zeroed memory."""
    return Delay(1, Split(0xA0000000, Ram(0x80000000, 16384), Ram(0xBFC00000, 4096)))


def settle(pile, request):
    """Waits a request out: its last answer."""
    while True:
        answer = pile.request(request)
        if answer is not WAIT:
            return answer
