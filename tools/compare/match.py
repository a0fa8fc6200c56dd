"""Matching: which item of the one commit is which of the other, and whether it is the same up to names."""

import re
from collections import Counter, defaultdict
from difflib import SequenceMatcher

from .items import ANSWERS, DEFINITION, EDIT, LEMMAS, NOTION, last

SAME, MOVED, RENAMED, CHANGED, NEW, GONE = "same", "moved", "renamed", "changed", "new", "gone"
STATES = (SAME, MOVED, RENAMED, CHANGED, NEW, GONE)
ALIKE, NEARLY = 0.6, 0.8  # so alike must two items be that are taken for one although more than names differs: of one name, and of two
PASSED_ON = ("Prelude", "Common")  # modules of the library that pass on names of others


class Renaming:
    """A growing one-to-one map of the repository's own names, from the one commit to the other."""

    def __init__(self, old, new):
        self.to, self.back, self.paths = {}, {}, set()
        self.bare = set()  # names without their modules, for texts that cannot be resolved
        self.members = [self._by_name(it.index) for it in (old, new)]

    @staticmethod
    def _by_name(index):
        found = defaultdict(list)
        for entity in index.roles:
            found[last(entity)].append(entity)
        return found

    def add(self, one, other):
        if self.allows(one, other):
            self.to[one], self.back[other] = other, one
            self.bare.add((last(one), last(other)))

    def allows(self, one, other):
        return self.to.get(one, other) == other and self.back.get(other, one) == one

    def is_open(self, one, other):
        return one not in self.to and other not in self.back

    def member(self, one, other, strict):
        """Whether a name behind a dot can be the other: some two members with these names are matched."""
        ours, theirs = self.members[0].get(one, []), self.members[1].get(other, [])
        if one == other and not (ours and theirs):
            return True
        return any(self.to.get(it) == that or (not strict and self.is_open(it, that)) for it in ours for that in theirs)

    def is_doubtful(self, one, other):
        """Whether a name behind a dot has become another although some member of its name has not."""
        return one != other and any(it in self.to and last(self.to[it]) != other for it in self.members[0].get(one, []))

    def loose(self, one, other):
        """Whether a name that Rattle makes, or a word of an edit, is the other: its pieces are names that are matched."""
        ours, theirs = re.split(r"[-+]", one), re.split(r"[-+]", other)
        return len(ours) == len(theirs) and all(it == that or (it, that) in self.bare for it, that in zip(ours, theirs))


def same_text(one, other):
    """Whether two words that are not the repository's are the same: by what they say, and by the module that they come from."""
    homes = [it.of for it in (one, other) if it.of]
    is_passed_on = any(it.endswith(PASSED_ON) for it in homes) and all(it.startswith("Rattle.std.") for it in homes)
    return one.text == other.text and (len(set(homes)) < 2 or is_passed_on)


def agree(ours, theirs, names, strict=False):
    """The pairs of names under which two texts are the same, or None. Strictly: under those alone that are matched already."""
    if len(ours) != len(theirs):
        return None
    bound, back, fresh, fresh_back = {}, {}, {}, {}
    for one, other in zip(ours, theirs):
        if one.kind != other.kind:
            return None
        if one.kind == "own" and names.to.get(one.of) != other.of:
            if strict or not names.is_open(one.of, other.of) or not joins(fresh, fresh_back, one.of, other.of):
                return None
        elif one.kind == "local":
            if not joins(bound, back, one.text, other.text):
                return None
        elif one.kind != "own" and not same_word(one, other, names, strict):
            return None
    return {"names": fresh, "bound": bound}


def joins(to, back, one, other):
    """Adds a pair to a map and the one back, and returns whether both stay one to one."""
    return to.setdefault(one, other) == other and back.setdefault(other, one) == one


def same_word(one, other, names, strict):
    if one.kind == "member":
        return names.member(one.text, other.text, strict)
    if one.kind == "loose":
        return names.loose(one.text, other.text)
    if one.kind == "path":
        return one.text == other.text or (one.text, other.text) in names.paths
    return same_text(one, other)


class Matching:
    """All pairs of items of two commits, and what has no partner."""

    def __init__(self, old, new):
        self.names = Renaming(old, new)
        self.pairs = []
        self.left = {id(it): it for it in old.items}
        self.right = {id(it): it for it in new.items}
        self._by_place()
        self._to_the_end()
        self._by_likeness()
        self._to_the_end()
        self._bound_names()

    def _to_the_end(self):
        while self._parts() or self._by_text() or self._by_votes():
            pass

    def _pair(self, old, new):
        del self.left[id(old)], self.right[id(new)]
        self.pairs.append((old, new))
        self.names.add(old.entity, new.entity)
        self.names.paths.add((old.path, new.path))
        theirs = {last(it): it for it in new.parts}
        for part in old.parts:
            if last(part) in theirs:
                self.names.add(part, theirs[last(part)])

    def _by_place(self):
        """Pairs what has the same crate, file and name."""
        there = {(it.group, it.entity): it for it in self.right.values()}
        for old in list(self.left.values()):
            new = there.pop((old.group, old.entity), None)
            if new:
                self._pair(old, new)

    def _parts(self):
        """Matches the fields, constructors and clauses of pairs that are the same but for their names."""
        before = len(self.names.to)
        for old, new in self.pairs:
            if any(it not in self.names.to for it in old.parts):
                found = agree(old.statement, new.statement, self.names)
                for part in old.parts if found else []:
                    if found["names"].get(part) in new.parts:
                        self.names.add(part, found["names"][part])
        return len(self.names.to) > before

    def _key(self, item, is_old=False):
        owners = tuple(self.names.to.get(it, it) for it in item.owners) if is_old else item.owners
        return owners, item.bare

    def _by_text(self):
        """Pairs items whose texts agree, where there is one such pair; of several those of one name, file or crate go first."""
        buckets = defaultdict(list)
        for new in self.right.values():
            buckets[new.group, len(new.statement)].append(new)
        chosen = defaultdict(list)
        for old in self.left.values():
            found = [it for it in buckets[old.group, len(old.statement)] if agree(old.statement, it.statement, self.names) is not None]
            for nearer in (lambda it: self._key(it) == self._key(old, True), lambda it: it.entity[:2] == old.entity[:2], lambda it: it.crate == old.crate):
                found = [it for it in found if nearer(it)] or found
            if len(found) == 1:
                chosen[id(found[0])].append((old, found[0]))
        pairs = [it[0] for it in chosen.values() if len(it) == 1]
        for old, new in pairs:
            self._pair(old, new)
        return bool(pairs)

    def _by_votes(self):
        """Pairs the items whose names stand at the same place of texts that are otherwise the same, if the two are alike."""
        votes = defaultdict(Counter)
        for old, new in self.pairs:
            found = agree(old.statement, new.statement, self.names)
            for one, other in (found["names"] if found else {}).items():
                votes[one][other] += 1
        ours = {it.entity: it for it in self.left.values()}
        theirs = {it.entity: it for it in self.right.values()}
        pairs = []
        for one, others in votes.items():
            old, new = ours.get(one), theirs.pop(next(iter(others)), None)
            if old and new and len(others) == 1 and old.group == new.group and likeness(old, new) >= ALIKE:
                pairs.append((old, new))
        for old, new in pairs:
            self._pair(old, new)
        return bool(pairs)

    def _by_likeness(self):
        """Pairs what is left and alike: of one name first, then of one file."""
        same_name = lambda old, new: self._key(old, True) == self._key(new)
        same_file = lambda old, new: old.entity[:2] == new.entity[:2]
        for wanted, enough in ((same_name, ALIKE), (same_file, NEARLY)):
            ranked = [(likeness(old, new), old, new) for old in self.left.values() for new in self.right.values() if old.group == new.group and wanted(old, new)]
            for value, old, new in sorted(ranked, key=lambda it: -it[0]):
                if value >= enough and id(old) in self.left and id(new) in self.right:
                    self._pair(old, new)

    def _bound_names(self):
        """Notes how parameters and variables of the code were renamed, which proofs and edits name too."""
        for old, new in self.pairs:
            for ours, theirs in ((old.statement, new.statement), (old.proof, new.proof)):
                if old.path.endswith(".rt"):
                    found = agree(ours, theirs, self.names)
                    self.names.bare.update(found["bound"].items() if found else [])

    def state(self, old, new):
        if agree(old.statement, new.statement, self.names, strict=True) is None:
            return CHANGED
        if old.kind != new.kind and {old.kind, new.kind} != {DEFINITION, NOTION}:
            return CHANGED
        parts = [(last(it), last(self.names.to[it])) for it in old.parts if it in self.names.to]
        if old.bare != new.bare or any(one != other for one, other in parts):
            return RENAMED
        return SAME if old.path == new.path else MOVED

    def doubts(self, old, new):
        """The names behind dots of which only types would tell that they may be renamed as they are here."""
        words = zip(old.statement, new.statement) if len(old.statement) == len(new.statement) else []
        return sorted({(one.text, other.text) for one, other in words if one.kind == "member" and self.names.is_doubtful(one.text, other.text)})

    def proof_state(self, old, new):
        return CHANGED if agree(old.proof, new.proof, self.names, strict=True) is None else SAME


def likeness(old, new):
    """How alike two items are, from 0 to 1, by their words; a file of proofs or an edit is named by its place."""
    ours, theirs = [it.text for it in old.statement], [it.text for it in new.statement]
    if old.group in (ANSWERS, LEMMAS, EDIT) and not (ours and theirs):
        return 0
    matcher = SequenceMatcher(None, ours, theirs, autojunk=False)
    return matcher.ratio() if matcher.real_quick_ratio() >= ALIKE and matcher.quick_ratio() >= ALIKE else 0
