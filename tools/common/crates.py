"""The crates of a repository, as its list has them: in their order, each with those that it names."""
import os
import typing

from common import TOP

LIST = "crates.txt"


def listed(folder: str = TOP) -> dict[str, list[str]]:
    """The crates of the list in a folder; none where there is no list."""
    path = os.path.join(folder, LIST)
    if not os.path.exists(path):
        return {}
    with open(path, encoding="utf-8") as file:
        parted = [line.partition("#")[0].partition(":") for line in file]
    return {name.split()[0]: named.split() for name, colon, named in parted if colon}


def line_of(name: str, needs: list[str]) -> str:
    return f"{name}: {' '.join(needs)}".rstrip() + "\n"


def below(names: typing.Iterable[str], known: dict[str, list[str]]) -> dict[str, list[str]]:
    """These crates and those that they stand on, so far as they are known, each behind those that it names."""
    found: dict[str, list[str]] = {}

    def visit(name: str) -> None:
        if name in known and name not in found:
            for need in known[name]:
                visit(need)
            found[name] = known[name]

    for name in names:
        visit(name)
    return found
