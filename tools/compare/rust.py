"""Files of Rattle: contracts, types, tests, and what each word in them means."""

import re
from dataclasses import dataclass, field
from typing import List, Optional

from .antt import Reader, Scope
from .items import PRIVATE, PUBLIC, TEST, TYPE, Item, last
from .words import Word, antt_words, find, matching, rust_words

TEXT = set(
    "bool char str u8 u16 u32 u64 u128 usize i8 i16 i32 i64 i128 isize f32 f64 self Self true false"
    " as break const continue crate dyn else enum extern fn for if impl in let loop match mod move mut pub ref return static struct super trait type unsafe use where while".split()
)
ITEM_WORDS = {"fn", "struct", "enum", "trait", "impl", "mod", "const", "static", "type", "use", "macro_rules", "union"}
SKIPPED = {"unsafe", "extern", "async"}


@dataclass
class Part:
    """One item of a file, as it was cut out: what it is, its words, and the owner (impl, trait or struct) that it stands in."""

    role: str
    name: str
    words: list
    is_public: bool
    is_test: bool
    owner: Optional["Part"] = None
    ghosts: list = field(default_factory=list)

    @property
    def full_name(self):
        return f"{self.owner.name}.{self.name}" if self.owner else self.name


@dataclass
class Module:
    """A module of the code: its imports, ghost imports and parts, and the modules that it declares for tests."""

    crate: str
    path: str
    place: str
    is_test: bool = False
    uses: list = field(default_factory=list)
    ghosts: list = field(default_factory=list)
    parts: List[Part] = field(default_factory=list)
    inner: list = field(default_factory=list)
    tests: list = field(default_factory=list)

    def whole(self):
        return [self, *(it for inner in self.inner for it in inner.whole())]


def module_place(path, crate):
    steps = path.split(f"crates/{crate}/src/")[1][: -len(".rt")].split("/")
    steps = steps[:-1] if steps[-1] in ("lib", "main", "mod") else steps
    return ".".join(["src", *steps])


def parse(module, words, owner=None):
    """Cuts words into items, and adds them to the module; owner: the impl, trait or struct around."""
    at, is_public, is_test = 0, False, module.is_test
    while at < len(words):
        it, start = words[at], at
        if it.text == "#":
            end = matching(words, at + (2 if words[at + 1].text == "!" else 1))
            is_test = is_test or "test" in [word.text for word in words[at:end]]
            at = end + 1
            continue
        if it.text == "pub":
            is_public = words[at + 1].text != "("
            at = at + 1 if is_public else matching(words, at + 1) + 1
            continue
        if it.clause:
            at = _ghost(module, words, at, owner)
        elif it.text in ITEM_WORDS and not (it.text == "const" and words[at + 1].text in ("fn", "unsafe")):
            at = _item(module, words, at, is_public, is_test, owner)
        elif it.text in SKIPPED or it.text == "const":
            at += 1
            continue
        else:
            at = _end(words, at)
        is_public, is_test = False, module.is_test
        at = max(at, start + 1)


def _end(words, at):
    """The place behind the item that begins at `at`: behind its ';' or its braces."""
    stop = find(words, (";", "{"), at)
    return (matching(words, stop) if stop < len(words) and words[stop].text == "{" else stop) + 1


def _ghost(module, words, at, owner):
    keyword, name, body = words[at].clause
    if keyword == "use":
        (owner or module).ghosts.append(antt_words(body))
    elif owner:
        module.parts.append(Part("ghost", name, body, owner.is_public, owner.is_test, owner))
    return at + 1


def _item(module, words, at, is_public, is_test, owner):
    role, name, end = words[at].text, words[at + 1].text, _end(words, at)
    if role in ("const", "static", "type", "use"):
        end = find(words, (";",), at) + 1
    body = words[at:end]
    if role == "use":
        module.uses.append((is_public, body[1:-1]))
    elif role == "mod" and body[-1].text == "}":
        module.inner.append(Module(module.crate, module.path, f"{module.place}.{name}", is_test))
        parse(module.inner[-1], body[3:-1])
    elif role == "mod":
        module.tests += [f"{module.place}.{name}"] * is_test
    elif role in ("impl", "trait"):
        brace = find(body, ("{",))
        named = _impl_name(body[1:brace]) if role == "impl" else name
        part = Part(role, named, body[:brace], is_public or role == "impl", is_test)
        module.parts.append(part)
        parse(module, body[brace + 1 : -1], part)
    elif role != "macro_rules":
        is_shown = is_public or bool(owner and (owner.role == "trait" or " for " in owner.name))
        part = Part(role, name, body, is_shown, is_test, owner, owner.ghosts if owner else [])
        module.parts.append(part)
        if role == "struct":
            module.parts += [Part("ghost", it.clause[1], it.clause[2], is_public, is_test, part) for it in body if it.clause]
            part.words = [it for it in body if not it.clause]
    return end


def _impl_name(words):
    """As 'Core' of impl<B: Bus> Core<B>, and 'From<Fault> for Error' of impl From<Fault> for Error."""
    at, names, last, inside = 0, [], "", ""
    while at < len(words) and words[at].text != "where":
        if words[at].text == "<":
            end = _angle(words, at)
            at, inside = end, "".join(it.text for it in words[at : end + 1])
        elif words[at].text == "for":
            names, last = [last + inside], ""
        elif re.match(r"\w", words[at].text):
            last, inside = words[at].text, ""
        at += 1
    return " for ".join([*names, last])


def _angle(words, at):
    """The place of the '>' that closes the '<' at `at`."""
    depth = 0
    for place in range(at, len(words)):
        depth += {"<": 1, ">": -1}.get(words[place].text, 0)
        if not depth:
            return place
    return len(words) - 1


class File:
    """One file of src/: its modules, and its items."""

    def __init__(self, crate, path, text):
        self.module = Module(crate, path, module_place(path, crate))
        parse(self.module, rust_words(text))

    def mark_tests(self, places):
        """Marks what stands in a module that is declared for tests alone."""
        for module in self.module.whole():
            if any(f"{module.place}.".startswith(f"{it}.") for it in places):
                for part in module.parts:
                    part.is_test = True

    def enter(self, index):
        for module in self.module.whole():
            index.modules.setdefault((module.crate, module.place), {})
            for part in module.parts:
                if part.role != "impl":
                    role = "field" if part.role == "ghost" else part.role
                    index.add((module.crate, module.place, part.full_name), role, None if part.owner else part.name)
                for name in _parts(part):
                    index.add((module.crate, module.place, f"{part.full_name}.{name}"), "constructor" if part.role == "enum" else "field")

    def pass_on(self, index):
        """Enters what the modules import for others."""
        for module in self.module.whole():
            names = Names(index, module)
            for name, (kind, target) in names.imported(public=True).items():
                if kind == "own":
                    index.modules[(module.crate, module.place)].setdefault(name, target)

    def items(self, index):
        return [it for module in self.module.whole() for it in Names(index, module).items()]


def _parts(part):
    """The names of a struct's fields, an enum's variants or a function's named clauses."""
    words = part.words
    if part.role == "fn":
        return [it.clause[1] for it in words if it.clause and it.clause[1] and it.text.startswith(("requires", "ensures"))]
    if part.role not in ("struct", "enum") or words[-1].text != "}":
        return []
    names, at = [], find(words, ("{",)) + 1
    while at < len(words) - 1:
        if words[at].text == "#":
            at = matching(words, at + 1) + 1
        elif words[at].text == "pub":
            at = matching(words, at + 1) + 1 if words[at + 1].text == "(" else at + 1
        else:
            names.append(words[at].text)
            at = find(words, (",",), at) + 1
    return names


class Names:
    """What the names of a module of the code mean."""

    def __init__(self, index, module):
        self.index, self.module = index, module
        self.names = {name: ("own", it) for name, it in index.modules[(module.crate, module.place)].items()}
        for name, it in self.imported().items():
            self.names.setdefault(name, it)

    def imported(self, public=False):
        """What the module imports, or passes on of it: each name, and where it leads."""
        found = {}
        trees = [words for is_public, words in self.module.uses if is_public or not public]
        for path, name in [it for words in trees for it in _tree([word.text for word in words])]:
            target = self.lead(path)
            if target and target[2] == len(path) and name != "*":
                found[name] = target[:2]
            elif target and target[0] == "module" and name == "*":
                found.update((it, ("own", entity)) for it, entity in self.index.modules.get(target[1], {}).items())
        return found

    def lead(self, path):
        """Where a path leads: ('own', entity, steps taken) or ('module', place, steps taken), or None."""
        crate, steps = self.module.crate, self.module.place.split(".")
        head = self.names.get(path[0])
        if path[0] == "crate":
            target = ("module", (crate, "src"))
        elif path[0] in ("self", "super"):
            ups = len([it for it in path if it == "super"])
            target = ("module", (crate, ".".join(steps[: len(steps) - ups])))
            path = path[max(ups - 1, 0) :]
            taken = self._follow(target, path)
            return taken and (*taken[:2], taken[2] + max(ups - 1, 0))
        else:
            below = (crate, f"{self.module.place}.{path[0]}")
            target = head or (("module", below) if below in self.index.modules else None)
            target = target or (("module", (path[0], "src")) if (path[0], "src") in self.index.modules else None)
        return target and self._follow(target, path)

    def _follow(self, target, path):
        taken = 1
        for step in path[1:]:
            if target[0] == "module":
                entity = self.index.modules.get(target[1], {}).get(step)
                inner = (target[1][0], f"{target[1][1]}.{step}")
                following = ("own", entity) if entity else ("module", inner) if inner in self.index.modules else None
            else:
                entity = self.index.below(target[1], step)
                following = ("own", entity) if entity else None
            if not following:
                break
            target, taken = following, taken + 1
        return (*target, taken)

    def items(self):
        return [self._item(part) for part in self.module.parts if part.role != "impl"]

    def _item(self, part):
        entity = (self.module.crate, self.module.place, part.full_name)
        kind = PUBLIC if part.is_public else PRIVATE
        kind = TEST if part.is_test else kind if part.role in ("fn", "ghost") else TYPE
        item = Item(kind, entity, self.module.path, part.name, parts=[(*entity[:2], f"{part.full_name}.{it}") for it in _parts(part)])
        header = part.owner.words if part.owner and part.owner.role in ("impl", "trait") else []
        bound = _generics(header) | _generics(part.words) if part.role != "ghost" else _generics(header)
        own = {last(it): it for it in item.parts}
        prefix = self.code(header, bound, {})
        item.owners = tuple(it.of for it in prefix if it.kind == "own")
        if part.owner and part.owner.role == "struct":
            item.owners = ((*entity[:2], part.owner.name),)
        if part.role == "ghost":
            item.statement = [*prefix, Word("own", part.name, entity), *self._reader(part.owner, bound, own).read(part.words)]
            return item
        brace = find(part.words, ("{", ";")) if part.role == "fn" else len(part.words)
        bound |= _parameters(part.words[:brace]) if part.role == "fn" else set()
        head = self.code(part.words[:brace], bound, {**own, part.name: entity}, part)
        body = self.code(part.words[brace:], bound, {}, part, is_body=True)
        item.statement, item.proof = prefix + head + (body if kind == TEST else []), [] if kind == TEST else body
        return item

    def _reader(self, part, bound, own):
        """Reads terms of antt that stand in this part."""
        scope = Scope(self.index, self.names)
        for words in [*self.module.ghosts, *(part.ghosts if part else [])]:
            scope.use(words)
        owner = part.owner if part and part.owner else part
        if owner and owner.role in ("trait", "struct"):
            prefix = (self.module.crate, self.module.place, f"{owner.name}.")
            members = {it[2][len(prefix[2]) :]: it for it in self.index.roles if it[:2] == prefix[:2] and it[2].startswith(prefix[2])}
            scope = scope.inside({name: it for name, it in members.items() if self.index.roles[it] == "field"})
        return Reader(scope, bound)

    def code(self, words, bound, own, part=None, is_body=False):
        """What the words of a text of Rattle mean."""
        out, at = [], 0
        while at < len(words):
            it, path, size = words[at], [words[at].text], 1
            while at + size + 1 < len(words) and words[at + size].text == "::" and words[at + size + 1].text[0].isalpha():
                path.append(words[at + size + 1].text)
                size += 2
            target = self.lead(path) if it.text[0].isalpha() else None
            if it.clause:
                keyword, name, body = it.clause
                out.append(Word("text", keyword, None, it.line))
                out += [Word("own", name, own[name], it.line)] if name in own else [Word("local", name, None, it.line)] * (name in bound)
                out += self._reader(part, bound, own).read(body)
            elif at and words[at - 1].text == "." and it.glued:
                out.append(Word("loose" if is_body else "member", it.text, None, it.line))
            elif it.text in own and size == 1 and not (it.text in bound):
                out.append(Word("own", it.text, own[it.text], it.line))
            elif it.text in bound or (re.match(r"'\w+$", it.text) and it.text not in ("'static", "'_")):
                out.append(Word("local", it.text, None, it.line))
                size = 1
            elif target and target[0] == "own":
                out.append(Word("own", target[1][2].split(".")[-1], target[1], it.line))
                size = 2 * target[2] - 1
            else:
                out.append(self._plain(words, at, is_body))
                size = 1
            at += size
        return out

    @staticmethod
    def _plain(words, at, is_body):
        """A word that leads nowhere: in a body one in lower case is a variable, unless it is called."""
        it, after = words[at], words[at + 1].text if at + 1 < len(words) else ""
        is_field = after == ":" and at and words[at - 1].text in ("{", ",")
        is_variable = it.text[0].islower() and it.text not in TEXT and after not in ("(", "!", "::") and (not at or words[at - 1].text != "::")
        kind = "text" if not is_body else "loose" if is_field else "local" if is_variable else "text"
        return Word(kind, it.text, None, it.line)


def _tree(words, before=()):
    """The imports of a use tree, each with the name that it gives."""
    path, at = list(before), 0
    while at < len(words) and words[at] not in ("{", "as"):
        path += [words[at]] * (words[at] != "::")
        at += 1
    if at < len(words) and words[at] == "as":
        return [(path, words[at + 1])]
    if at == len(words):
        is_self = path and path[-1] == "self" and len(path) > 1
        path = path[:-1] if is_self or path[-1:] == ["*"] else path
        return [(path, "*" if words[-1:] == ["*"] else path[-1])] if path else []
    found, depth, begin = [], 0, at + 1
    for place in range(at + 1, len(words)):
        depth += {"{": 1, "}": -1}.get(words[place], 0)
        if depth < 0 or (depth == 0 and words[place] == ","):
            found += _tree(words[begin:place], path) if place > begin else []
            begin = place + 1
    return found


def _generics(words):
    """The names that the first angle brackets of an item bind."""
    start = 1 if words and words[0].text == "impl" else 2
    if len(words) <= start or words[start].text != "<":
        return set()
    end, depth, names = _angle(words, start), 0, set()
    for at in range(start, end):
        depth += {"<": 1, ">": -1}.get(words[at].text, 0)
        before = words[at - 1].text
        if depth == 1 and (before in ("<", ",", "const")) and words[at].text not in ("const", "<"):
            names.add(words[at].text)
    return names


def _parameters(words):
    """The names of a function's parameters, and of its ghost clause."""
    start = find(words, ("(",))
    end = matching(words, start) if start < len(words) else start
    depth, names = 0, {it.clause[1] for it in words if it.text == "ghost"}
    for at in range(start, end):
        depth += {"(": 1, ")": -1, "[": 1, "]": -1, "<": 1, ">": -1}.get(words[at].text, 0)
        if words[at + 1].text == ":" and depth == 1 and words[at].text != ")":
            names.add(words[at].text)
    return names
