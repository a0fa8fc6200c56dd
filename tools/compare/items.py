"""Items: what a commit defines, states and proves, and where names lead."""

from dataclasses import dataclass, field
from typing import Dict, List, Optional, Tuple

from .words import Entity, Word

DEFINITION, NOTION, THEOREM = "definitions", "definitions in proofs", "theorems"
PUBLIC, PRIVATE, TEST, TYPE = "public contracts", "private contracts", "tests", "types, constants"
ANSWERS, LEMMAS, EDIT = "answers", "files of lemmas", "edits"
KINDS = (DEFINITION, THEOREM, NOTION, PUBLIC, PRIVATE, TYPE, ANSWERS, LEMMAS, TEST, EDIT)
# an item is matched with one of the same group alone
GROUP = {NOTION: DEFINITION, PRIVATE: PUBLIC, TEST: PUBLIC}


def last(entity):
    """The name of an entity without its owner's."""
    return entity[2].rsplit(".", 1)[-1]


@dataclass
class Item:
    kind: str
    entity: Entity
    path: str
    bare: str  # its own name, without its owners'
    owners: Tuple[Entity, ...] = ()
    parts: List[Entity] = field(default_factory=list)  # fields, constructors, named clauses
    statement: List[Word] = field(default_factory=list)
    proof: List[Word] = field(default_factory=list)

    @property
    def crate(self):
        return self.entity[0]

    @property
    def name(self):
        place = self.entity[1].split(".", 1)
        return ".".join([*place[1:], self.entity[2]])

    @property
    def group(self):
        return GROUP.get(self.kind, self.kind)


@dataclass
class Index:
    """Where names lead: what each module has, and what each entity is."""

    modules: Dict[Tuple[str, str], Dict[str, Entity]] = field(default_factory=dict)
    roles: Dict[Entity, str] = field(default_factory=dict)

    def add(self, entity, role, name=None):
        """Notes an entity; under `name` it can be named in its module."""
        self.roles[entity] = role
        module = self.modules.setdefault(entity[:2], {})
        if name and (name not in module or role not in ("constructor", "field")):
            module[name] = entity

    def below(self, entity, name) -> Optional[Entity]:
        """The constructor, variant, field or function `name` of a type."""
        inner = (entity[0], entity[1], f"{entity[2]}.{name}")
        return inner if inner in self.roles else None

    def import_of(self, path):
        """What a path of antt, as Rattle.bus.specs.Meaning.Keeps, leads to: ('own', entity), ('module', place) or ('text', module)."""
        steps = path.split(".")
        if steps[0] != "Rattle" or len(steps) < 4 or steps[1] not in self.crates:
            return "text", ".".join(steps[:-1])
        crate, place = steps[1], ".".join(steps[2:])
        if steps[2:4] == ["specs", "declared"]:
            return self._declared(crate, steps[4:])
        if (crate, place) in self.modules:
            return "module", (crate, place)
        held = self.modules.get((crate, ".".join(steps[2:-1])), {})
        return ("own", held[steps[-1]]) if steps[-1] in held else ("loose", "")

    def _declared(self, crate, steps):
        """A type of the code, its variants, or one of them."""
        steps = [it for it in steps if it not in ("TheVariants", "TheConstants")] or [""]
        for cut in range(len(steps), -1, -1):
            module = self.modules.get((crate, ".".join(["src", *steps[:cut]])))
            if module is not None and cut < len(steps):
                entity = module.get(steps[cut])
                rest = [it for it in steps[cut + 1 :] if it != steps[cut]]
                inner = self.below(entity, rest[0]) if entity and rest else entity
                return ("own", inner) if inner else ("loose", "")
        return "loose", ""

    @property
    def crates(self):
        return {crate for crate, _ in self.modules}
