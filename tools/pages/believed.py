"""The files of definitions that what the program does depends on: the table of docs/ARCHITECTURE.md, "What has to be
believed", with their number, which docs/BELIEVE.md tells too. proved_page.py writes and checks both.

It goes by names: from `Does` to each definition that it names, and on from there. It stops at the crates that say what
`certified` means.
"""
import collections
import functools
import os
import re
import typing

from common import TOP, text_of

PAGE, AGAIN = os.path.join("docs", "ARCHITECTURE.md"), os.path.join("docs", "BELIEVE.md")
MARKS = "<!-- definitions: written by tools/pages/proved_page.py -->", "<!-- end of definitions -->"
COUNT = re.compile(r"definitions of (\d+) files")
FIRST = ("Rattle.suite_cli.specs.Runs", "Does")
CERTIFIED = ("run_certify", "law_certified")
IMPORT = re.compile(r"^(?:pub )?use (Rattle\.[\w.]*\w)(?:\.\{(.*)\}| as (\S+))$", re.M)
WORDS = ("abbrev", "pub", "record", "data")
NAME = re.compile(r"[^\s(){}\[\];,:.]+(?:\.[^\s(){}\[\];,:.]+)*")
# A definition, by its module and its name.
Definition = tuple[str, str]


class Module(typing.NamedTuple):
    """A file of definitions: what it has from others by its own names, whole modules by theirs, and its texts."""

    names: dict[str, Definition]
    modules: dict[str, str]
    texts: dict[str, str]


def path_of(module: str) -> str:
    crate, below = module.split(".")[1], module.split(".")[3:]
    return os.path.join(TOP, "crates", crate, "specs", *below) + ".antt"


@functools.cache
def module_of(module: str) -> Module | None:
    """A file of definitions of some crate; None where the module is none."""
    if ".specs." not in module or not os.path.exists(path_of(module)):
        return None
    text = re.sub(r"--.*", "", text_of(path_of(module)))
    names: dict[str, Definition] = {}
    modules: dict[str, str] = {}
    for other, listed, called in IMPORT.findall(text):
        if called:
            modules[called] = other
        for each in filter(None, listed.split(", ")):
            name, _, own = each.partition(" as ")
            names[own or name] = (other, name)
    texts: dict[str, str] = collections.defaultdict(str)
    name = ""
    for line in IMPORT.sub("", text).split("\n"):
        begins = next((word for word in NAME.findall(line) if word not in WORDS), "")
        name = begins if line[:1].strip() and begins else name
        texts[name] += f"{line}\n"
    return Module(names, modules, texts)


def named_by(module: str, name: str) -> typing.Iterator[Definition]:
    """The definitions that one names."""
    found = module_of(module)
    for word in NAME.findall(found.texts.get(name, "")) if found else ():
        front, *behind = word.split(".")
        if behind and front in found.modules:
            yield found.modules[front], behind[0]
        for part in (front, *behind):
            if part in found.texts:
                yield module, part
            elif part in found.names:
                yield found.names[part]


def reached() -> set[str]:
    """The modules of all definitions that the first depends on."""
    seen, left = set[Definition](), [FIRST]
    while left:
        one = left.pop()
        if one not in seen and one[0].split(".")[1] not in CERTIFIED:
            seen.add(one)
            left += named_by(*one)
    return {module for module, name in seen if (found := module_of(module)) and name in found.texts}


def table(crates: list[str]) -> tuple[str, int]:
    """The table, with the crates from the top down, and how many files it has."""
    files = collections.defaultdict(list)
    for module in reached():
        files[module.split(".")[1]].append("/".join(module.split(".")[3:]))
    lines = ["| Crate | Definitions below `Does` |", "|---|---|"]
    for crate in reversed(crates):
        order = re.findall(r"pub mod (\w+)", text_of("crates", crate, "specs", "Lib.antt")) if files[crate] else []
        own = sorted(files[crate], key=lambda one: order.index(one) if one in order else len(order))
        lines += [f"| `{crate}` | {', '.join(f'`{one}`' for one in own)} |"] if own else []
    return "\n".join(lines), sum(map(len, files.values()))


def fault(count: int) -> str | None:
    """What is wrong with how many files docs/BELIEVE.md tells."""
    told = COUNT.findall(text_of(AGAIN))
    return None if told == [str(count)] else f"{AGAIN} tells of definitions of {told} files, and there are {count}"
