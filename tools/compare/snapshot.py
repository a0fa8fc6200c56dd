"""A commit of the repository: its files, its items and the lines of each crate."""

import io
import re
import subprocess
import tarfile

from . import antt, rust
from .items import EDIT, Index, Item
from .words import Word, rust_words


class Unreadable(Exception):
    """What stopped the work, in words for whoever called."""


def git(*words, binary=False):
    ran = subprocess.run(["git", *words], stdout=subprocess.PIPE, stderr=subprocess.PIPE)
    if ran.returncode:
        raise Unreadable(f"git {' '.join(words)}: {ran.stderr.decode(errors='replace').strip()}")
    return ran.stdout if binary else ran.stdout.decode().strip()


def archive(commit):
    """The files of a commit, as git packs them; the checkout is not touched."""
    top = git("rev-parse", "--show-toplevel")
    return tarfile.open(fileobj=io.BytesIO(git("-C", top, "archive", "--format=tar", commit, binary=True)))


class Snapshot:
    """The files of a commit, the items in them, and where names lead."""

    def __init__(self, name):
        self.name, self.commit = name, git("rev-parse", "--verify", f"{name}^{{commit}}")
        self.files = {}
        with archive(self.commit) as packed:
            for member in packed.getmembers():
                found = re.match(r"crates/(\w+)/(src/.*\.rt|(?:specs|proofs)/.*\.antt|must-fail/[^/]*\.edit)$", member.name)
                if found and member.isfile():
                    self.files[member.name] = (found.group(1), packed.extractfile(member).read().decode("utf-8"))
        self.index, self.items = Index(), []
        self._read()

    def _read(self):
        read = {path: self._file(path, crate, text) for path, (crate, text) in self.files.items() if not path.endswith((".edit", "Lib.antt"))}
        code = [it for it in read.values() if isinstance(it, rust.File)]
        places = {}
        for it in code:
            for module in it.module.whole():
                places.setdefault(module.crate, []).extend(module.tests)
        for it in read.values():
            it.enter(self.index)
        for it in code * 2:
            it.pass_on(self.index)
        for it in code:
            it.mark_tests(places[it.module.crate])
        self.items = [item for it in read.values() for item in it.items(self.index)]
        self.items += [edit(crate, path, text) for path, (crate, text) in self.files.items() if path.endswith(".edit")]

    @staticmethod
    def _file(path, crate, text):
        try:
            return (rust if path.endswith(".rt") else antt).File(crate, path, text)
        except (IndexError, ValueError) as fault:
            raise Unreadable(f"{path}: not in a form that this reads ({fault!r})") from fault

    def lines(self):
        """The lines of each crate's src, specs and proofs, blank ones and comments with them."""
        counts = {}
        for path, (crate, text) in self.files.items():
            side = path.split("/")[2]
            counts.setdefault(crate, {"src": 0, "specs": 0, "proofs": 0})
            if side in counts[crate]:
                counts[crate][side] += text.count("\n")
        return counts


def edit(crate, path, text):
    """An edit that must be refused: the file, and what becomes what in it."""
    name, words = path.split("/")[-1], []
    for number, line in enumerate(text.splitlines(), 1):
        key, _, rest = line.partition(": ")
        if key == "file":
            words.append(Word("path", f"crates/{crate}/{rest}", None, number))
        elif key in ("old", "new"):
            words.append(Word("text", key, None, number))
            words += [Word("loose" if it.text[0].isalpha() else "text", it.text, None, number) for it in plain_words(rest)]
    return Item(EDIT, (crate, "must-fail", name), path, name, statement=words)


def plain_words(text):
    """The words of a line of code, a clause's among them."""
    words = []
    for it in rust_words(text):
        words += it.clause[2] if it.clause and it.text != "ghost use" else [it]
    return words
