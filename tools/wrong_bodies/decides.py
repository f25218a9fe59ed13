"""What can decide whether a wrong body is refused, as one sum: by it the ledger knows a line that is stale.

A wrong body is refused where a declaration of its crate is not admitted with it. That hangs on the edit itself; on its
crate's line of crates.txt and its texts, without comments: src/, specs/, proofs/; on what can be cited of the crates
below (cited.py): their sources and definitions, and of their lemmas the files that the crate names, with those that
these name; and on the kit, by its whole name, since another kit of the same logic has other tactics.
"""
import collections
import functools
import hashlib
import os
import re
import typing

from common import TOP, crates, text_of
from front import sources
from wrong_bodies import changes, cited

PARTS = (cited.CODE, cited.CLAIMS, cited.PROOFS)
LEMMAS = re.compile(r"Rattle\.(\w+)\.proofs(?:\.([^\s{};]+))?")


@functools.lru_cache(None)
def lemmas_in(text: str) -> tuple[tuple[str, str], ...]:
    """The crates and paths of the lemmas that a text names."""
    return tuple({*LEMMAS.findall(text)})


def digest(value: typing.Any) -> str:
    return hashlib.sha256(repr(value).encode()).hexdigest()


class Crate:
    """A crate of a tree: its texts, and what of them can be cited."""

    def __init__(self, top: str, name: str) -> None:
        self.folder, self.name = os.path.join(top, "crates", name), name
        self.files: dict[str, str] = {}
        for part in PARTS:
            for at, _, names in os.walk(os.path.join(self.folder, part)):
                for path in (os.path.join(at, file) for file in names if os.path.splitext(file)[1] in sources.KINDS):
                    self.files[os.path.relpath(path, self.folder)] = text_of(path)

        self.has_private = cited.names_contracts(self.files)

    def seen(self, path: str) -> str:
        """What crates above can cite of a file of it."""
        return cited.of_file(path, self.files[path], self.has_private)

    @functools.cached_property
    def whole(self) -> str:
        """The sum of all its texts."""
        return digest(told(self.files))

    @functools.cached_property
    def claimed(self) -> str:
        """The sum of its sources and definitions, so far as they can be cited."""
        return digest([(it, self.seen(it)) for it in sorted(self.files) if not it.startswith(cited.PROOFS)])

    @functools.cached_property
    def named(self) -> tuple[tuple[str, str], ...]:
        """The lemmas that its texts name."""
        return tuple({it for text in self.files.values() for it in lemmas_in(text)})

    def files_of(self, words: str) -> list[str]:
        """The file of lemmas that a path names, the longest part of it that is one; all of them, where none is."""
        parts = words.split(".")
        for count in range(len(parts), 0, -1):
            path = f"{cited.PROOFS}/{'/'.join(parts[:count])}.antt"
            if path in self.files:
                return [path]
        return [path for path in self.files if path.startswith(cited.PROOFS)]


def told(files: dict[str, str]) -> list[tuple[str, str]]:
    return sorted((path, cited.told(text, os.path.splitext(path)[1])) for path, text in files.items())


class Tree:
    """The crates of a tree, under a kit of this name."""

    def __init__(self, kit: str, top: str = TOP) -> None:
        self.kit, self.top, self.listed = kit, top, crates.listed(top)
        self.crates: dict[str, Crate] = {}
        self.heads: dict[str, str] = {}

    def crate(self, name: str) -> Crate:
        if name not in self.crates:
            self.crates[name] = Crate(self.top, name)
        return self.crates[name]

    def lemmas(self, name: str, known: typing.Container[str]) -> dict[str, dict[str, str]]:
        """What can be cited of the files of lemmas that a crate names, and that those name, by crate and path."""
        found: dict[str, dict[str, str]] = collections.defaultdict(dict)
        left = [*self.crate(name).named]
        while left:
            of, words = left.pop()
            for path in self.crate(of).files_of(words) if of in known else []:
                if path not in found[of]:
                    found[of][path] = self.crate(of).seen(path)
                    left += lemmas_in(found[of][path])
        return found

    def head(self, name: str) -> str:
        """The sum of all that decides the edits of a crate, but the edit."""
        if name not in self.heads:
            below = crates.below(self.listed[name], self.listed)
            lemmas = self.lemmas(name, below)
            told_of = [
                (it, line, self.crate(it).claimed, sorted(lemmas.get(it, {}).items()))
                for it, line in sorted(below.items())
            ]
            self.heads[name] = digest((self.kit, name, self.listed[name], self.crate(name).whole, told_of))
        return self.heads[name]

    def of_edit(self, name: str, text: str) -> str:
        """The sum of what decides an edit of a crate; "", where it does not apply."""
        try:
            changed = changes.applied(changes.changes_in(text), self.crate(name).folder)
        except changes.Bad:
            return ""
        return digest((self.head(name), told(changed)))
