"""The report: tables in Markdown, the names of what changed, and the difference of one item."""

from collections import Counter, defaultdict
from difflib import SequenceMatcher

from .items import ANSWERS, DEFINITION, EDIT, KINDS, LEMMAS, NOTION, PRIVATE, PUBLIC, TEST, THEOREM, TYPE, last
from .match import CHANGED, GONE, MOVED, NEW, RENAMED, SAME, STATES

PROOFS, CODE = "proofs of theorems", "code of functions"
STATED = (DEFINITION, THEOREM, NOTION, PUBLIC, PRIVATE, TYPE)
SHOWN = (PROOFS, CODE, ANSWERS, LEMMAS, TEST, EDIT)
SIDES = ("src", "specs", "proofs")


def title(item):
    """How an item is called in a list: a file by its path in the crate, all else by module and name."""
    if item.kind in (ANSWERS, LEMMAS, EDIT):
        return item.path.split("/", 2)[2]
    return item.name


def judged(matching):
    """Each item of either commit, as (crate, kind, state, old, new); the proof of a theorem and the code of a function too."""
    for old, new in matching.pairs:
        yield new.crate, new.kind, matching.state(old, new), old, new
        kind = {THEOREM: PROOFS, PUBLIC: CODE, PRIVATE: CODE}.get(new.kind)
        if kind and (old.proof or new.proof):
            yield new.crate, kind, matching.proof_state(old, new), old, new
    for state, items in ((GONE, matching.left), (NEW, matching.right)):
        for it in items.values():
            yield it.crate, it.kind, state, it if state == GONE else None, it if state == NEW else None


class Report:
    def __init__(self, old, new, matching):
        self.old, self.new, self.matching = old, new, matching
        self.found = list(judged(matching))

    def text(self, full=False):
        parts = [f"What {self.new.commit[:7]} changes in {self.old.commit[:7]}:"]
        parts += [self._table("What is stated", STATED), self._table("How it is shown", SHOWN), self._lines(), self._names(full)]
        return "\n\n".join(it for it in parts if it)

    def _table(self, heading, kinds):
        """A row for each crate in which something differs, and one for all."""
        counts = defaultdict(Counter)
        for crate, kind, state, _, _ in self.found:
            if kind in kinds:
                counts[crate][kind, state] += 1
                counts["all"][kind, state] += 1
        crates = sorted(it for it in counts if it != "all" and any(state != SAME for _, state in counts[it]))
        rows = [[it, *(self._cell(counts[it], kind) for kind in kinds)] for it in [*crates, "all"]]
        return table([heading, *kinds], rows)

    @staticmethod
    def _cell(counts, kind):
        differing = [f"{counts[kind, it]} {it}" for it in STATES if it != SAME and counts[kind, it]]
        return ", ".join([f"{counts[kind, SAME]}"] + differing if differing else [f"{counts[kind, SAME] or ''}"])

    def _lines(self):
        old, new = self.old.lines(), self.new.lines()
        rows, before, after = [], Counter(), Counter()
        for crate in sorted({*old, *new}):
            one, other = old.get(crate, dict.fromkeys(SIDES, 0)), new.get(crate, dict.fromkeys(SIDES, 0))
            before.update(one)
            after.update(other)
            if one != other:
                rows.append([crate, *(arrow(one[it], other[it]) for it in SIDES)])
        rows.append(["all", *(arrow(before[it], after[it]) for it in SIDES)])
        return table(["Lines", *SIDES], rows)

    def _names(self, full):
        """A line for each crate and state with the names; in full, a line for each renamed or moved one, and for proofs and code."""
        names, moves = defaultdict(lambda: defaultdict(list)), []
        for crate, kind, state, old, new in self.found:
            if state in (RENAMED, MOVED):
                moves.append(f"- {state}, {kind}: `{old.crate}/{title(old)}` → `{new.crate}/{title(new)}`" + self._parts(old))
            elif state != SAME and (full or kind not in (PROOFS, CODE) or "/specs/" in new.path):
                names[crate, state][kind].append(self._name(old, new))
        lines = []
        for crate, state in sorted(names, key=lambda it: (it[0], STATES.index(it[1]))):
            kinds = sorted(names[crate, state].items(), key=lambda it: [*KINDS, PROOFS, CODE].index(it[0]))
            lines.append(f"- {crate}, {state}: " + "; ".join(f"{kind} {', '.join(sorted(found))}" for kind, found in kinds))
        return "\n".join(lines + self._doubts() + (sorted(moves) if full else []))

    def _doubts(self):
        """What is called the same by the name of a field that several records have, of which only some have another one now."""
        found = []
        for _, kind, state, old, new in self.found:
            doubts = self.matching.doubts(old, new) if old and new and state != CHANGED and kind in STATED else []
            if doubts:
                found.append(f"`{title(new)}` ({', '.join(f'.{one} → .{other}' for one, other in doubts)})")
        return [f"- to be looked at, since other records keep that name of a field: {'; '.join(found)}"] if found else []

    def _parts(self, old):
        """Which fields, constructors or clauses of an item have other names."""
        pairs = [(last(it), last(self.matching.names.to[it])) for it in old.parts if it in self.matching.names.to]
        said = [f"`{one}` → `{other}`" for one, other in pairs if one != other]
        return f" ({', '.join(said)})" if said else ""

    @staticmethod
    def _name(old, new):
        """One name, or both where they differ; a contract that others can now name, or no longer, is called so."""
        if not (old and new) or (old.crate, title(old)) == (new.crate, title(new)):
            said = f"`{title(new or old)}`"
        else:
            said = f"`{old.crate}/{title(old)}` → `{title(new)}`"
        return said + (f" (now of the {new.kind})" if old and new and old.kind != new.kind else "")

    def difference(self, name):
        """The differences of the items with this name, or None where there is none."""
        called = lambda it: it and name in (it.bare, title(it), it.entity[2], f"{it.crate}/{title(it)}")
        found = [it for it in self.found if called(it[3]) or called(it[4])]
        return "\n\n".join(self._difference(*it) for it in found) if found else None

    def _difference(self, crate, kind, state, old, new):
        head = f"{crate}, {kind}, {self._name(old, new)}: {state}"
        if state not in (CHANGED,):
            return head
        side = "proof" if kind in (PROOFS, CODE) else "statement"
        hunks = differences(getattr(old, side), getattr(new, side), self.matching.names)
        if old.kind != new.kind:
            hunks.append(f"was of the {old.kind}")
        return "\n".join([head, *(hunks or ["the words are the same, but names in them lead elsewhere, or one name became two"])])


def table(head, rows):
    return "\n".join(["| " + " | ".join(it) + " |" for it in [head, ["---"] * len(head), *rows]])


def arrow(one, other):
    return f"{one:,}" if one == other else f"{one:,} → {other:,}"


def differences(ours, theirs, names):
    """What differs between two texts, with the words around it, once the old one's names are the new ones."""
    bound = bound_names(ours, theirs)
    ours = [renamed(it, names, bound) for it in ours]
    keys = [[(it.kind, it.text, it.of if it.kind == "own" else None) for it in words] for words in (ours, theirs)]
    found = []
    for group in SequenceMatcher(None, *keys, autojunk=False).get_grouped_opcodes(5):
        said = []
        for tag, a, b, c, d in group:
            one, other = ours[a:b], theirs[c:d]
            by_module = tag != "equal" and [it.text for it in one] == [it.text for it in other]
            if tag == "equal":
                said.append(joined(one))
            else:
                said += [f"[-{joined(one, by_module)}-]"] * bool(one) + [f"{{+{joined(other, by_module)}+}}"] * bool(other)
        found.append(f"  line {theirs[min(group[0][3], len(theirs) - 1)].line}: … {' '.join(said)} …" if theirs else "")
    return [it for it in found if "[-" in it or "{+" in it]


def bound_names(ours, theirs):
    """Which bound name stands for which, where the texts around them are the same."""
    plain = [[(it.kind, "" if it.kind == "local" else it.text) for it in words] for words in (ours, theirs)]
    votes = defaultdict(Counter)
    for at, there, size in SequenceMatcher(None, *plain, autojunk=False).get_matching_blocks():
        for one, other in zip(ours[at : at + size], theirs[there : there + size]):
            if one.kind == "local":
                votes[one.text][other.text] += 1
    return {one: found.most_common(1)[0][0] for one, found in votes.items()}


def renamed(word, names, bound):
    """A word of the old text, as the new one would have it."""
    if word.kind == "own" and word.of in names.to:
        entity = names.to[word.of]
        return word._replace(of=entity, text=last(entity))
    if word.kind == "own":
        return word._replace(of=("gone", *word.of))
    if word.kind == "local":
        return word._replace(text=bound.get(word.text, word.text))
    others = {other for one, other in names.bare if one == word.text}
    return word._replace(text=others.pop()) if word.kind in ("member", "loose") and len(others) == 1 else word


def joined(words, by_module=False):
    """Words as a line of text; by_module: the repository's names with their modules."""
    line = ""
    for at, it in enumerate(words):
        text = ".".join(it.of[-2:]) if by_module and it.kind == "own" else it.text
        is_close = text in (")", "]", "}", ",", ";", ".") or (line.endswith(".") and it.kind in ("member", "loose"))
        line += text if not line or is_close or line.endswith(("(", "[")) else f" {text}"
    return line
