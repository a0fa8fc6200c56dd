"""The files of cases in crates/runcases/data; crates/runcases/data/README.md says what their lines are."""

import re

from .jobs import replies

DIGITS = re.compile(rb"[0-9A-Fa-f]{2}")


class Malformed(Exception):
    """A line that no file of cases has."""


class Line:
    """A line of a case: what it adds to the job, and the replies behind it."""

    def __init__(self, text):
        self.text = text
        self.job = b""
        self.replies = []
        self.front = text
        self.comment = ""
        if text and not text.startswith("#"):
            self.take(text)

    def take(self, text):
        """Takes a line apart."""
        if text.startswith('> "'):
            quoted, quote, rest = text[3:].partition('"')
            if not quote:
                raise Malformed("a quote has no end")
            times = self.cut(rest) or "1"
            if not times.isdecimal():
                raise Malformed("no number behind a quote")
            self.front = text[: len(text) - len(rest)] + (f" {times}" if times != "1" else "")
            self.job = unescaped(quoted) * int(times)
        else:
            self.front = self.cut(text)
            self.add(self.front[:1], self.front[1:].strip())

    def cut(self, text):
        """Cuts off the comment, and the reply in front of it; what stands before both."""
        text, mark, comment = text.partition(";")
        self.comment = mark + comment
        front, mark, reply = text.partition("<")
        if mark:
            self.replies.append(reply.strip())
        return front.strip()

    def add(self, mark, order):
        """Adds a line of the job; behind = its kind is its reply."""
        if mark == "=":
            if len(order) < 2:
                raise Malformed("no kind behind =")
            self.replies.insert(0, order[:2])
        elif mark != ">" and not (mark == "" and self.replies):
            raise Malformed("a line with no mark")
        if mark:
            self.job = order.encode() + b"\n"

    def write(self, answers):
        """The lines of text with these replies in place of those that it had."""
        if answers == self.replies:
            return [self.text]
        order = self.front[1:].strip()
        kind = answers == [order[:2]] and not order.startswith('"')
        front = f"{'=' if kind else '>'} {order}".rstrip()
        first, *others = [None] if kind or not answers else answers
        here = front if first is None else f"{front:<10} < {first}"
        return [f"{here}   {self.comment}".rstrip(), *(f"< {other}" for other in others)]


class Case:
    """A job and its replies, with a name and the number of the line that begins it."""

    def __init__(self, name, number):
        self.name = name
        self.number = number
        self.lines = []

    @property
    def job(self):
        return b"".join(line.job for line in self.lines)

    @property
    def replies(self):
        return [reply for line in self.lines for reply in line.replies]

    def write(self):
        """The lines of text, with the model's replies where those in the file differ."""
        answers = list(replies(self.job))
        text = [f"case {self.name}"]
        if answers == self.replies:
            return text + [line.text for line in self.lines]
        ends = [line for line in self.lines if line.job]
        for line in self.lines:
            open_end = bool(ends) and line is ends[-1] and not line.job.endswith(b"\n")
            count = line.job.count(b"\n") + open_end
            mine, answers = answers[:count], answers[count:]
            if line.job or not line.replies:
                text += line.write(mine)
        return text


def unescaped(text):
    """The bytes of a text in which a backslash and two digits stand for a byte."""
    first, *parts = text.encode().split(b"\\")
    for part in parts:
        if not DIGITS.fullmatch(part[:2]):
            raise Malformed("no two digits behind \\")
        first += bytes([int(part[:2], 16)]) + part[2:]
    return first


def read(text):
    """The lines in front of the first case, and the cases."""
    head, cases = [], []
    for number, line in enumerate(text.splitlines(), 1):
        if line.startswith("case "):
            cases.append(Case(line[5:], number))
        elif cases:
            try:
                cases[-1].lines.append(Line(line))
            except Malformed as why:
                raise Malformed(f"line {number}: {why}") from None
        elif line and not line.startswith("#"):
            raise Malformed(f"line {number}: a line in front of the first case")
        else:
            head.append(line)
    return head, cases


def difference(case):
    """The first reply that the model gives otherwise, in words, or none."""
    came = list(replies(case.job))
    for number in range(max(len(came), len(case.replies))):
        expected, reply = (all[number] if number < len(all) else "none" for all in (case.replies, came))
        if expected != reply:
            return f"reply {number + 1}: {expected} in the file, {reply} by the model"
    return None


def rewritten(text):
    """The text of a file, with the model's replies where those in it differ."""
    head, cases = read(text)
    lines = head + [line for case in cases for line in case.write()]
    return "\n".join(lines) + "\n"
