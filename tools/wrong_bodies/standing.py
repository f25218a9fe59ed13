"""Where wrong bodies stand: crates/NAME/gate, which the gate holds to the ledger, and crates/NAME/wrong beside it."""
import os
import re
import typing

from common import TOP, functions, text_of
from wrong_bodies import changes, decides, kit

CRATES = os.path.join(TOP, "crates")
GATE, BESIDE = PLACES = "gate", "wrong"
NAMED = re.compile(r"[A-Za-z0-9_-][A-Za-z0-9_.-]*\.edit")
BY = re.compile(r"^refused by: .*?`([\w:]+)`", re.M)

# A wrong body, by its crate and its name.
Key = tuple[str, str]


class Edit(typing.NamedTuple):
    """A wrong body: where it stands, its text, and the sum of what decides it ("": it does not apply)."""

    crate: str
    name: str
    place: str
    text: str
    sum: str

    @property
    def key(self) -> Key:
        return self.crate, self.name


def crates() -> list[str]:
    """The names of all crates, sorted."""
    return sorted(name for name in os.listdir(CRATES) if os.path.isdir(os.path.join(CRATES, name, "src")))


def edits(crate: str, place: str) -> list[str]:
    """The files in a place of a crate's edits, sorted."""
    folder = os.path.join(CRATES, crate, place)
    return [os.path.join(folder, name) for name in sorted(os.listdir(folder))] if os.path.isdir(folder) else []


def name_of(path: str) -> str:
    return os.path.splitext(os.path.basename(path))[0]


def all_edits(names: typing.Iterable[str], places: typing.Iterable[str] = PLACES) -> dict[Key, Edit]:
    """The edits in these places of these crates, with their sums as the tree stands."""
    tree, found = decides.Tree(kit.name()), dict[Key, Edit]()
    for crate in names:
        for place in places:
            for path in edits(crate, place):
                text = text_of(path)
                edit = Edit(crate, name_of(path), place, text, tree.of_edit(crate, text))
                found[edit.key] = edit
    return found


def paths_of(edit: Edit, crate: str) -> list[str]:
    """The functions of the crate in this folder that an edit says it is refused by, as `--only` takes them: those of
    the files that it changes, where the name is of others, too."""
    named = BY.search(edit.text)
    found: dict[str, list[str]] = {}
    for at, _, names in os.walk(os.path.join(crate, "src")) if named else ():
        for file in (os.path.join(at, name) for name in names if name.endswith(".rt")):
            inside = os.path.relpath(file, crate)
            module = [it for it in os.path.splitext(inside)[0].split("/")[1:] if it not in ("lib", "main")]
            found[inside] = [
                "::".join(filter(None, (*module, one.of, one.name)))
                for one in functions.functions(text_of(file))
                if one.is_called(named[1])
            ]
    changed = {one.file for one in changes.changes_in(edit.text)}
    return [it for file in changed for it in found.get(file, [])] or [it for paths in found.values() for it in paths]
