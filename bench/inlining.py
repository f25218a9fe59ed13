"""The hints on inlining that stand in the sources, put into a module that `rt try` made, which has none of them.

A hint stands on the lines above a function (`#[inline(always)]`, `#[cold]` and the like). In the module a function
has the path of its crate, its modules, its type, if it is a method, and its name: `rep_core::locks::LockTable::set`.
A method of a trait has the type's name with more behind it, and what is generic has `::<#...>` behind its name.
Functions are told apart by crate, type or module, and name, so a hint may fall on two functions of one name; that has
not been seen to matter.
"""
import glob
import os
import re
import typing

import measure  # noqa: F401
from common import functions

WORDS = {"inline": "inlinehint", "inline(always)": "alwaysinline", "inline(never)": "noinline", "cold": "cold"}
HINT = re.compile(r"#\[(inline|inline\(always\)|inline\(never\)|cold)\]")
GENERIC = re.compile(r"::<#[0-9a-f]+>$")
DEFINED = re.compile(r'^(define [^\n]*?@"?)([^"(]+)("?\([^\n]*\) )#0 \{$', re.MULTILINE)
COMMON = re.compile(r"^attributes #0 = \{ (.*) \}$", re.MULTILINE)
FIRST_GROUP = 200


def hints_of(file: str) -> typing.Iterator[typing.Any]:
    """The hints in a source: for each function its crate, its type or its module, its name and its words."""
    folders = file.split(os.sep)
    place = len(folders) - 1 - folders[::-1].index("src")
    crate, stem = folders[place - 1], folders[-1].removesuffix(".rt")
    if stem in ("mod", "lib"):
        stem = crate if folders[-2] == "src" else folders[-2]
    with open(file, encoding="utf-8", errors="replace") as source:
        text = source.read()
    lines = text.split("\n")
    for one in functions.functions(text):
        first = one.first
        while lines[first - 1].lstrip().startswith(("//", "#[")):
            first -= 1
        words = frozenset(WORDS[word] for line in lines[first : one.first] for word in HINT.findall(line))
        if words:
            yield crate, one.name, (one.of, one.by_trait) if one.of or one.by_trait else (stem, None), words


def fits(path: typing.Any, own: typing.Any) -> bool:
    """Whether a function of this path is of this type, or stands in this module."""
    name, is_trait = own
    if is_trait is None:
        return name in path[:-1] and path[-2].islower()
    return bool(name) and (path[-2].startswith(name) if is_trait else path[-2] == name)


def hinted(module: str, roots: list[str]) -> str:
    """The module with the hints of all sources under these roots; no function is checked for wrong accesses."""
    known: dict[tuple[str, str], list[tuple[typing.Any, frozenset[str]]]] = {}
    for root in roots:
        for file in glob.glob(os.path.join(root, "*", "src", "**", "*.rt"), recursive=True):
            for crate, name, own, words in hints_of(file):
                known.setdefault((crate, name), []).append((own, words))
    groups: dict[str, int] = {}

    def with_hints(defined: re.Match[str]) -> str:
        path = GENERIC.sub("", defined.group(2)).split("::")
        found = [words for own, words in known.get((path[0], path[-1]), []) if len(path) > 1 and fits(path, own)]
        words: set[str] = set().union(*found)
        words -= {"alwaysinline", "inlinehint"} if "noinline" in words else set()
        if not words:
            return defined.group(0)
        group = groups.setdefault(" ".join(sorted(words)), FIRST_GROUP + len(groups))
        return f"{defined.group(1)}{defined.group(2)}{defined.group(3)}#{group} {{"

    module = module.replace("sanitize_address ", "")
    common = COMMON.search(module).group(1)
    module = DEFINED.sub(with_hints, module)
    return module + "".join(f"attributes #{group} = {{ {words} {common} }}\n" for words, group in groups.items())
