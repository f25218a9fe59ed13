"""The functions of a source, as `rt fmt` lays it out."""
import re
import typing

BLOCK = re.compile(r"^(?:pub(?:\([^)]*\))? )?(?:unsafe )?(?:impl|trait)\b")
# The head of a function.
FUNCTION = re.compile(r"^(?P<indent> *)(?P<pub>pub(?:\([^)]*\))? )?(?:const )?(?:unsafe )?fn (?P<name>\w+)")


class Function(typing.NamedTuple):
    """A function with a body: its type or "", whether by a trait, its name, the lines of head, body and end."""

    of: str
    by_trait: bool
    name: str
    first: int
    body: int
    last: int

    def is_called(self, name: str) -> bool:
        """Whether it is meant by a name, as NAME or TYPE::NAME."""
        of, _, own = name.rpartition("::")
        return self.name == own and of in ("", self.of)


def type_of(line: str) -> str:
    """The type, or the trait, of the block that a line begins."""
    plain = re.sub(r"<[^<>]*(?:<[^<>]*(?:<[^<>]*>[^<>]*)*>[^<>]*)*>", "", line)
    plain = plain[plain.index(" for ") :] if " for " in plain else plain
    named = re.search(r"(?:\bfor|\btrait|\bimpl) &?(?:'\w+ )?(?:mut )?(?:\w+::)*(\w+)", plain)
    return named[1] if named else ""


def body_of(lines: list[str], first: int, indent: str) -> tuple[int, int] | None:
    """Where the body of the function of this head begins and ends, where it has one."""
    for place in range(first, len(lines)):
        line = lines[place]
        if place > first and (FUNCTION.match(line) or line.startswith(f"{indent[4:]}}}")):
            return None
        if line.startswith(f"{indent}{{") or line.endswith("{") and (place == first or line.startswith(f"{indent})")):
            last = place
            while lines[last] not in (f"{indent}}}", f"{indent}{{}}"):
                last += 1
            return place, last
        if place == first and line.endswith("}"):
            return place, place
    return None


def functions(text: str) -> typing.Iterator[Function]:
    """The functions of a source that have a body."""
    lines = text.split("\n")
    of, by_trait = "", False
    for first, line in enumerate(lines):
        if BLOCK.match(line):
            of, by_trait = type_of(line), " for " in line or "trait " in line.split("{")[0]
        elif line.startswith("}"):
            of, by_trait = "", False
        head = FUNCTION.match(line)
        found = body_of(lines, first, head["indent"]) if head else None
        if head and found:
            yield Function(of if head["indent"] else "", by_trait, head["name"], first, *found)
