"""Files of antt: their items, and what each word in them means."""

import re
from typing import NamedTuple

from .items import ANSWERS, DEFINITION, LEMMAS, NOTION, THEOREM, Item
from .words import CLOSING, OPENING, Word, antt_words, find

MADE = ("Answers.antt", "Invariants.antt", "Proof.antt")
MODIFIERS = {"pub", "abbrev", "unfoldable", "opaque", "private"}
RESERVED = {*MODIFIERS, *"λ let in where record data module elim = : → × ↦ | _ ?".split()}
CONSTRUCTORS = {"zero", "suc", "true", "false", "refl"}
NAME = re.compile(r"[^\W\d_]|_\w")


class Scope:
    """What the names of a file mean, by its imports and its own items."""

    def __init__(self, index, names=None):
        self.index, self.names = index, dict(names or {})

    def use(self, words):
        """Reads an import, the words behind `use`."""
        brace = find(words, ("{",))
        text = "".join(f" {it.text} " if it.text == "as" else it.text for it in words[:brace])
        path, _, alias = (it.strip() for it in text.partition(" as "))
        path = path.rstrip(".")
        if brace == len(words):
            self.names[alias or path.split(".")[-1]] = self.index.import_of(path)
            return
        for name in " ".join(it.text for it in words[brace + 1 : -1]).split(" , "):
            name, _, alias = (it.strip() for it in name.partition(" as "))
            found = self.index.import_of(f"{path}.{name}")
            self.names[alias or name] = (*found, name) if found[0] in ("text", "loose") else found

    def inside(self, members):
        return Scope(self.index, {**self.names, **{name: ("own", it) for name, it in members.items()}})


class Reader:
    """Says what each word of a term means; knows which names are bound where."""

    def __init__(self, scope, bound=(), is_loose=False):
        # of each bracket that is open: what it is, the names bound in it, and those of them that a separator leaves
        self.scope, self.is_loose, self.frames = scope, is_loose, [("", set(bound), set(bound))]

    def read(self, words, own=None, left=0, where=frozenset()):
        """own: what is declared here; left: how many words are patterns; where: names that the text itself defines, at the head of a line."""
        self.words, self.own, out, at = words, own or {}, [], 0
        self.frames[0][1].update(where)
        self.frames[0][2].update(where)
        pattern_end = left
        while at < len(words):
            if self._begins_pattern(at, where):
                pattern_end = find(words, ("↦", "="), at)
            self._enter(at, at < pattern_end)
            at += self._emit(at, at < pattern_end, out)
        return out

    def _enter(self, at, in_pattern):
        """Opens and closes frames, and binds what a binder binds."""
        text, words = self.words[at].text, self.words
        if text in OPENING:
            self._open(at, in_pattern)
        elif text in CLOSING:
            del self.frames[max(len(self.frames) - 1, 1) :]
        elif text in (",", ";", "|") and len(self.frames) > 1:
            self._reset(-1)
        elif text in ("λ", "let"):
            self._bind(words[at + 1 : find(words, (".",) if text == "λ" else (":", "="), at + 1)])
        elif text == "where":
            self.frames[0][2].update(self.frames[0][1])
        elif text in self.own and words[min(at + 1, len(words) - 1)].text == ":":
            self._reset(0)

    def _reset(self, place):
        _, bound, kept = self.frames[place]
        bound.clear()
        bound.update(kept)

    def _begins_pattern(self, at, where):
        """Whether a pattern begins here: in a case of elim, or at the head of a clause of a name that the text itself defines."""
        text, before = self.words[at].text, self.words[at - 1] if at else None
        if before and before.text in ("[", "|") and self.frames[-1][0] == "[":
            end = find(self.words, ("↦", "|", "]"), at)
            return end < len(self.words) and self.words[end].text == "↦"
        is_head = text in where and (not before or before.line < self.words[at].line)
        return is_head and self.words[min(at + 1, len(self.words) - 1)].text != ":"

    def _open(self, at, in_pattern):
        """A new frame; names before a colon right behind the bracket are bound in it, and behind it."""
        words, end = self.words, at + 1
        while end < len(words) and (NAME.match(words[end].text) and words[end].text not in RESERVED or words[end].text == "_"):
            end += 1
        is_group = words[at].text in "({" and at + 1 < end < len(words) and words[end].text == ":" and not in_pattern
        is_record = words[at].text == "{" and "record" in [it.text for it in words[max(at - 2, 0) : at]]
        if is_group:
            self._bind(words[at + 1 : end])
        self.frames.append(("record" if is_record else words[at].text, set(), set()))

    def _bind(self, words):
        self.frames[-1][1].update(it.text for it in words if NAME.match(it.text) and it.text not in RESERVED)

    def _is_bound(self, name):
        return any(name in bound for _, bound, _ in self.frames)

    def _emit(self, at, in_pattern, out):
        """Adds what the word at this place means, with the names behind it that belong to it, and returns how many words these were."""
        words, it = self.words, self.words[at]
        after = words[at + 1].text if at + 1 < len(words) else ""
        before = words[at - 1].text if at else ""
        is_name = bool(NAME.match(it.text)) and it.text not in RESERVED
        if it.glued and before == "." and at and words[at - 1].glued:
            out.append(Word("loose" if self.is_loose else "member", it.text, None, it.line))
        elif self.frames[-1][0] == "record" and before in ("{", ";") and after == "=":
            out.append(Word("member", it.text, None, it.line))
        elif it.text in self.own and not self._is_bound(it.text):
            out.append(Word("own", it.text, self.own[it.text], it.line))
        elif is_name and in_pattern and not self._is_constructor(at):
            self._pattern_frame().add(it.text)
            out.append(Word("local", it.text, None, it.line))
        elif is_name and self._is_bound(it.text):
            out.append(Word("local", it.text, None, it.line))
        else:
            return self._named(at, out)
        return 1

    def _pattern_frame(self):
        """The frame in which a pattern's variables hold: that of the cases, or of the whole clause."""
        return next((bound for kind, bound, _ in reversed(self.frames) if kind == "["), self.frames[0][1])

    def _is_constructor(self, at):
        it = self.words[at]
        target = self.scope.names.get(it.text)
        if at + 2 < len(self.words) and self.words[at + 1].text == "." and self.words[at + 1].glued:
            return True
        if target and target[0] == "own":
            return self.scope.index.roles.get(target[1]) == "constructor"
        return it.text == "tt" or bool(target) and (it.text in CONSTRUCTORS or it.text[0].isupper())

    def _named(self, at, out):
        """A name of the file, with the steps behind dots that lead on from it."""
        words, it = self.words, self.words[at]
        target, size = self.scope.names.get(it.text, ("text", "", it.text)), 1
        while at + size + 1 < len(words) and words[at + size].text == "." and words[at + size].glued and words[at + size + 1].glued:
            name = words[at + size + 1].text
            if target[0] == "module":
                entity = self.scope.index.modules[target[1]].get(name)
                target = ("own", entity) if entity else ("loose", "", name)
            elif target[0] == "own" and self.scope.index.below(target[1], name):
                target = ("own", self.scope.index.below(target[1], name))
            elif len(target) == 2 and target[0] in ("text", "loose"):
                target = (*target, name)
            else:
                break
            size += 2
        if target[0] == "own":
            out.append(Word("own", target[1][2].split(".")[-1], target[1], it.line))
        elif target[0] == "module":
            out.append(Word("loose", it.text, None, it.line))
        else:
            out.append(Word(target[0], (*target, it.text)[2], target[1], it.line))
        return size


class Found(NamedTuple):
    """An item as it was cut out: the words of its signature or declaration, of its clauses, and of the parameters around it."""

    role: str
    name: str
    words: list
    clauses: list
    telescope: list
    parts: list


class File:
    """One file of specs/ or proofs/: its imports, and its items in order, each with the parameters of the modules that it stands in."""

    def __init__(self, crate, path, text):
        self.crate, self.path = crate, path
        self.side, self.name = path.split("/")[2], path.split("/")[-1]
        self.is_made = self.name in MADE
        inside = path.split(f"crates/{crate}/{self.side}/")[1][: -len(".antt")]
        self.place, self.uses, self.found = f"{self.side}.{inside.replace('/', '.')}", [], []
        lines = []
        for it in antt_words(text):
            if not lines or it.line > lines[-1][0].line:
                lines.append([])
            lines[-1].append(it)
        self._block(lines, [])

    def _block(self, lines, telescope):
        """Reads lines of which the outermost begin items."""
        base = lines[0][0].column if lines else 0
        groups = []
        for line in lines:
            if line[0].column <= base or not groups:
                groups.append([])
            groups[-1].append(line)
        for group in groups:
            words = [it for line in group for it in line]
            heads = [it.text for it in words]
            head = next((at for at, it in enumerate(heads) if it not in MODIFIERS), 0)
            if heads[head] == "use":
                self.uses.append(words[head + 1 :])
            elif heads[head] == "module":
                where = find(words, ("where",))
                self._block([line for line in group if line[0].line > words[where].line], telescope + words[head + 2 : where])
            elif heads[head] in ("record", "data"):
                words = [it for it in words if it.text != "pub"]
                self.found.append(Found(words[0].text, words[1].text, words[1:], [], telescope, self._parts(group)))
            elif head + 1 < len(heads) and heads[head + 1] == ":":
                role = next((it for it in ("abbrev", "unfoldable", "opaque") if it in heads[:head]), "plain")
                self.found.append(Found(role, heads[head], words[head:], [], telescope, []))
            elif heads[head] != "mod" and self.found:
                self.found[-1].clauses.append(words)

    @staticmethod
    def _parts(group):
        """The names of fields or constructors: each stands before a colon at the head of a line of the least depth."""
        body = [line for line in group if line[0].column > group[0][0].column]
        least = min((line[0].column for line in body), default=0)
        lines = [[it.text for it in line if it.text != "pub"] for line in body if line[0].column == least]
        return [it[0] for it in lines if len(it) > 1 and it[1] == ":"]

    def enter(self, index):
        """Notes what the file defines."""
        index.modules.setdefault((self.crate, self.place), {})
        for it in self.found:
            index.add((self.crate, self.place, it.name), it.role, it.name)
            for part in it.parts:
                index.add((self.crate, self.place, f"{it.name}.{part}"), "constructor" if it.role == "data" else "field", part)

    def items(self, index):
        scope = Scope(index)
        for words in self.uses:
            scope.use(words)
        named = {part: f"{it.name}.{part}" for it in self.found if it.role == "data" for part in it.parts}
        named.update((it.name, it.name) for it in self.found)
        scope = scope.inside({name: (self.crate, self.place, it) for name, it in named.items()})
        if self.is_made:
            scope.names.update((it.name, ("loose", "", it.name)) for it in self.found)
        items = [self._item(scope, it) for it in self.found]
        if self.side == "specs" or not items:
            return items
        whole = [word for it in items for word in it.statement + it.proof]
        kind, steps = (ANSWERS, 2) if self.is_made else (LEMMAS, 1)
        file = Item(kind, (self.crate, self.place, ""), self.path, "/".join(self.path.split("/")[-steps:]), statement=whole)
        return [file] if self.is_made else [*items, file]

    def _item(self, scope, found):
        entity = (self.crate, self.place, found.name)
        kind = THEOREM if found.role == "plain" else DEFINITION if self.side == "specs" else NOTION
        parts = {it: (self.crate, self.place, f"{found.name}.{it}") for it in found.parts}
        item = Item(kind, entity, self.path, found.name, parts=list(parts.values()))
        own = {} if self.is_made else {found.name: entity}
        around = Reader(scope)
        prefix = around.read(found.telescope)
        bound = around.frames[0][1]
        head = Reader(scope.inside(parts) if found.role == "record" else scope, bound, self.is_made)
        role = Word("text", found.role, None, found.words[0].line)
        item.statement = [role, *prefix, *head.read(found.words, {**own, **parts})]
        for clause in found.clauses:
            is_aside = clause[0].text == "unfolding"
            left = 0 if is_aside else find(clause, ("=",))
            reader = Reader(scope, bound, self.is_made or kind == THEOREM)
            read = reader.read(clause, own, left, self._defined(clause))
            part = item.proof if is_aside or kind == THEOREM else item.statement
            part += read
        return item

    @staticmethod
    def _defined(clause):
        """The names that the clause itself defines behind its `where`."""
        behind = clause[find(clause, ("where",)) :]
        return {it.text for last, it, after in zip(behind, behind[1:], behind[2:]) if last.line < it.line and after.text == ":"}
