"""What of a crate the crates above it can cite, as texts by file: what else it has decides nothing there.

By the rules of the logic (the kit's rattle/ANTT.md and CONTRACTS.md) these are all of specs/; of src/ all but the
bodies of functions, and functions that are private; of a file of lemmas in proofs/ the signatures that are `pub` with
those that they name, and whole what opens in any module: `abbrev`, `unfoldable`, `data`, `record`, `ruleset`. All other
definitions are abstract, and what proves a function (Answers.antt, Invariants.antt, Proof.antt) is private to it. The
readers go by the layout of `rt fmt`, and take whole what they do not know.
"""
import functools
import os
import re

from common import functions as of_sources
from front import sources

CODE, CLAIMS, PROOFS = sources.CODE, sources.CLAIMS, sources.PROOFS
# What proves a function.
OF_FUNCTION = {"Answers.antt", "Invariants.antt", "Proof.antt"}
# A source with such a word is taken whole: it may write functions elsewhere.
WRITES = re.compile(r"\bmacro_rules!|\binclude(?:_str|_bytes)?!")
# Where definitions or clauses name what functions promise, those of private functions count too.
CONTRACTS = "specs.contracts"
IS_SEEN = re.compile(r"\s*pub (?!\()")
IS_CONST = re.compile(r"\s*(?:pub(?:\([^)]*\))? )?const ")
USE = re.compile(r"use (?P<path>[\w.+#«»◌◦-]+?)\.\{(?P<names>[^{}]*)\}$")
SIGNATURE = re.compile(r"(?P<pub>pub )?(?P<name>[^\s:(){}]+) :(?: |$)")


@functools.lru_cache(None)
def told(text: str, ending: str) -> str:
    """A text without comments and blank lines."""
    return sources.told(text, ending)


def words_of(text: str) -> set[str]:
    """The words of a text, and the parts of its operators."""
    return {*re.findall(r"[^\s(){}\[\],;.:]+", text), *re.findall(r"\w+|[^\w\s]+|\[\]|\[|\]", text)}


def head_of(lines: list[str], one: of_sources.Function) -> list[str]:
    """The lines of a function without its body."""
    if one.body == one.first:
        return [re.sub(r"\{[^{}]*\}?$", ";", lines[one.first])]
    return [*lines[one.first : one.body], lines[one.body].rpartition("{")[0] + ";"]


@functools.lru_cache(None)
def of_source(text: str, has_private: bool) -> str:
    """A source without the bodies of functions, and without private functions unless these are wanted too."""
    if WRITES.search(text):
        return told(text, ".rt")
    lines, out, at = text.split("\n"), list[str](), 0
    for one in sorted(of_sources.functions(text), key=lambda it: it.first):
        if one.first < at or IS_CONST.match(lines[one.first]):
            continue
        out += lines[at : one.first]
        if has_private or one.by_trait or IS_SEEN.match(lines[one.first]):
            out += head_of(lines, one)
        else:
            while out and re.match(r"\s*#\[", out[-1]):
                out.pop()
        at = one.last + 1
    return told("\n".join([*out, *lines[at:]]), ".rt")


def blocks(text: str) -> list[str]:
    """The items of a file of the logic: each begins at the left."""
    found = [""]
    for line in text.split("\n"):
        if line[:1].strip() and not line.startswith(("}", ")", "]")):
            found.append(line)
        else:
            found[-1] += "\n" + line
    return [block for block in found if block.strip()]


def is_equation(block: str, name: str) -> bool:
    """Whether an item belongs to the definition of this name: one of its equations, or what it unfolds. Of an operator
    nothing is known, since its equations begin with an argument."""
    return "◌" not in name and (block.split(None, 1)[0] == name or block.startswith("unfolding"))


def used(block: str, rest: set[str]) -> str:
    """A `use` without the names that the rest never says: they can mean nothing there."""
    found = USE.match(" ".join(block.split()))
    if not found:
        return block
    names = [it.strip() for it in found["names"].split(",") if it.strip()]
    kept = [it for it in names if rest.issuperset(re.findall(r"[^\s◌]+", it.split(" as ")[-1]))]
    return f"use {found['path']} {sorted(kept)}" if kept else ""


@functools.lru_cache(None)
def of_lemmas(text: str) -> str:
    """What of a file of lemmas can be cited."""
    kept, uses, hidden = list[str](), list[str](), dict[str, str]()
    name = ""
    for block in blocks(told(text, ".antt")):
        signature = SIGNATURE.match(block)
        if block.startswith("use "):
            uses.append(block)
        elif signature:
            name, text = signature["name"], block.partition("\n  unfolding")[0]
            if signature["pub"]:
                kept.append(text)
            else:
                hidden[name] = text
        elif not name or not is_equation(block, name):
            kept.append(block)
            name = ""
    rest = words_of(" ".join(kept))
    while new := [it for it in hidden if rest & words_of(it)]:
        kept += (stated := [hidden.pop(it) for it in new])
        rest |= words_of(" ".join(stated))
    return "\n".join([*sorted(it for use in uses if (it := used(use, rest))), *kept])


def names_contracts(files: dict[str, str]) -> bool:
    """Whether definitions, clauses or lemmas of a crate's files name what functions promise."""
    return any(CONTRACTS in text for path, text in files.items() if os.path.basename(path) not in OF_FUNCTION)


def of_file(path: str, text: str, has_private: bool) -> str:
    """What can be cited of a crate's file; with private functions, where these are named elsewhere."""
    if path.startswith(CODE):
        return of_source(text, has_private)
    if path.startswith(CLAIMS):
        return told(text, ".antt")
    return "" if os.path.basename(path) in OF_FUNCTION else of_lemmas(text)
