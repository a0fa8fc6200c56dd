"""Words: what a text is cut into, and what each of them means.

A Raw word is as it stands in a file. A Word has been resolved: it is the repository's own name ('own', of an entity), a bound
name ('local'), a name behind a dot whose owner only types would tell ('member'), a name that Rattle makes or a text speaks of
('loose'), or itself ('text').
"""

import re
from typing import NamedTuple, Optional, Tuple

# crate, place within it (as specs.Meaning or src.request), name (as Meaning.byte)
Entity = Tuple[str, str, str]


class Raw(NamedTuple):
    text: str
    line: int
    column: int
    glued: bool  # nothing stands between it and the word before
    clause: Optional[tuple] = None  # in code: keyword, name and words of a clause


class Word(NamedTuple):
    kind: str
    text: str
    of: object = None
    line: int = 0


OPENING, CLOSING = "([{⟦", ")]}⟧"
ANTT = re.compile(r'--[^\n]*|"(?:[^"\\]|\\.)*"|[()\[\]{}⟦⟧;,.]|λ|[^\s()\[\]{}⟦⟧;,."λ][^\s()\[\]{}⟦⟧;,.]*')
CLAUSE = re.compile(r"(?<!\w)(requires|ensures)(\*?)\s*(\w*)\s*\{|(?<!\w)(ghost)()\s+(?!use\b)(\w+)\s*[:=]?\s*\{")
GHOST_USE = re.compile(r"(?<!\w)ghost\s+use\s+([^;]*);")
RUST = re.compile(
    r"//[^\n]*|/\*.*?\*/|b?r(#*)\".*?\"\1|b?\"(?:[^\"\\]|\\.)*\"|b?'(?:\\[^']+|[^'\\])'|'\w+|\w+|::|->|=>|\.\.=|\.\.|&&|\|\||[<>=!+\-*/%^]=|[^\s\w]",
    re.S,
)


def antt_words(text, line=1, column=0):
    """The words of a text of antt, with no comments, with no ';' that ends a record, and no '|' before a first case."""
    words, end, start = [], -1, -column
    begin = 0
    for found in ANTT.finditer(text):
        breaks = text.count("\n", begin, found.start())
        if breaks:
            start = text.rindex("\n", begin, found.start()) + 1
        line, begin = line + breaks, found.start()
        it = found.group()
        if not it.startswith("--"):
            if it == "}" and words and words[-1].text == ";":
                words.pop()
            if not (it == "|" and words and words[-1].text == "["):
                words.append(Raw(it.strip("«»") or it, line, found.start() - start, found.start() == end))
        end = found.end()
    return words


def closed(text, at):
    """The place of the brace that closes the one before `at`."""
    depth = 1
    while depth and at < len(text):
        depth += {"{": 1, "}": -1}.get(text[at], 0)
        at += 1
    return at - 1


def rust_words(text, line=1):
    """The words of a text of Rattle, with no comments; a clause is one word, and so is a ghost import."""
    words, at, end = [], 0, -1
    while at < len(text):
        found = (GHOST_USE.match(text, at) or CLAUSE.match(text, at)) if text[at] in "reg" else None
        if found and found.re is GHOST_USE:
            words.append(Raw("ghost use", line, 0, False, ("use", "", found.group(1))))
            stop = found.end()
        elif found:
            stop = closed(text, found.end()) + 1
            word, star, name = [it for it in found.groups() if it is not None]
            body = antt_words(text[found.end() : stop - 1], line + text.count("\n", at, found.end()))
            words.append(Raw(word + star, line, 0, False, (word + star, name, body)))
        else:
            found = RUST.match(text, at)
            stop = found.end() if found else at + 1
            if found and not found.group().startswith(("//", "/*")):
                if found.group() in CLOSING and words and words[-1].text == ",":
                    words.pop()
                words.append(Raw(found.group(), line, 0, at == end))
        line, at, end = line + text.count("\n", at, stop), stop, stop
    return words


def matching(words, at):
    """The place of the bracket that closes the one at `at`, or the last place."""
    depth = 0
    for place in range(at, len(words)):
        it = words[place].text
        depth += (it in OPENING and len(it) == 1) - (it in CLOSING and len(it) == 1)
        if not depth:
            return place
    return len(words) - 1


def find(words, wanted, start=0):
    """The first place from `start` on, outside brackets, with one of the wanted words, or the length."""
    at = start
    while at < len(words):
        if words[at].text in wanted:
            return at
        at = matching(words, at) + 1 if words[at].text in tuple(OPENING) else at + 1
    return len(words)
