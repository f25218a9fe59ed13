"""Which list guarded a file or folder when an operation was denied, and how it came to that: by the plain table.

The transactions before are played by `suites table`, and after them the list is asked for by its owner, who lets
itself in.
"""
import re
import typing

from common import built
from explain import faults

OPEN = "u::rwx,g::rwx,o::rwx"


class Asked(typing.NamedTuple):
    """A transaction: a user, the user's groups, and operations."""

    uid: str
    groups: str
    operations: list[str]

    def line(self) -> str:
        return f"do {self.uid} {self.groups} {' ; '.join(self.operations)}"


class Denied(typing.NamedTuple):
    """An operation that was denied: its place, counted from 1, the path that it came to, and what decided."""

    place: int
    path: str
    by: str


def table(lines: list[str]) -> list[str]:
    """What `suites table` prints of a script; nothing where it has a fault."""
    text = "".join(f"{line}\n" for line in lines)
    status, printed = built.asked("table", text, path=built.chosen()[1])
    return printed.splitlines() if status == 0 else []


def makers(path: str, root: list[str], jobs: list[Asked]) -> list[tuple[str, str]]:
    """Who asked that a path is made, each with the first group, the last one last; of the root folder its owner."""
    made = {f"{verb} {path}" for verb in ("file", "folder")}
    asked = (job for job in jobs for operation in job.operations if " ".join(operation.split()[:2]) in made)
    return [(root[1], root[2])] if path == "/" else [(job.uid, job.groups.split(",")[0]) for job in asked]


def owner_of(path: str, root: list[str], jobs: list[Asked], answers: list[str]) -> tuple[str, str] | None:
    """The owner and the group of what has a path after these transactions, where something was made there."""
    answered = [job for job, answer in zip(jobs, answers) if answer.split()[1:2] == ["answered"]]
    return next(reversed(makers(path, root, answered)), None)


def header_of(script: str) -> list[str]:
    """The lines of a script of which a script of `table` has the same: its root folder and its names."""
    said = [line.split() for line in faults.lines_of(script) if line.split() and not line.startswith("#")]
    root = next(words for words in said if words[0] == "root")
    return [" ".join(root), *(" ".join(words) for words in said if words[0] in ("user", "group"))]


def answers(script: str, jobs: list[Asked]) -> list[str]:
    """What the plain table answers these transactions, one after the other."""
    return table([*header_of(script), *(job.line() for job in jobs)])


def list_then(script: str, jobs: list[Asked], path: str) -> tuple[str, str, str] | None:
    """The owner, the group and the list of a path after these transactions; owners open the folders on the way."""
    header, parts = header_of(script), [part for part in path.split("/") if part]
    # those on the way to it, the root folder first
    folders = ["/" + "/".join(parts[:count]) for count in range(len(parts))]
    root = header[0].split()
    lines = [f"do {' '.join(one)} setacl {folder} {OPEN}" for folder in folders for one in makers(folder, root, jobs)]
    asked = makers(path, root, jobs)
    lines += [f"do {' '.join(one)} getacl {path}" for one in asked]
    told = table([*header, *(job.line() for job in jobs), *lines])
    owner = owner_of(path, root, jobs, told)
    if not told or not owner or not all(owner_of(folder, root, jobs, told) for folder in folders):
        return None
    found = re.fullmatch(r"\d+ answered acl (\S+)", told[asked.index(owner) - len(asked)])
    return (*owner, found[1]) if found else None


def case_of(text: str, owner: str, group: str, caller: Asked) -> str:
    """Which entries of a list a caller is judged by, by acl(5)."""
    # of each entry, as `play` writes them, the letter of its kind and whom it names
    listed = [(item[0], item.split(":")[1]) for item in text.split(",") if not item.startswith(("d:", "default:"))]
    if caller.uid == owner:
        return "is the owner, so the owner's entry alone counts, user::"
    if ("u", caller.uid) in listed:
        return f"is named by an entry, user:{caller.uid}, which counts with the mask"
    groups = caller.groups.split(",")
    named = [who or group for kind, who in listed if kind == "g" and (who or group) in groups]
    if named:
        return (
            f"is neither the owner nor named, but in group {' and '.join(named)}, whose entries count with the mask, if"
            " there is one"
        )
    return "is neither the owner, nor named, nor in a group of the list, so the entry of all others counts, other::"


def told(script: str, before: list[Asked], caller: Asked, denied: Denied) -> typing.Iterator[str]:
    """The sentences about the list, the owner, and the caller of whom an operation was denied."""
    done = caller.operations[: denied.place - 1]
    found = list_then(script, before + ([caller._replace(operations=done)] if done else []), denied.path)
    if not found:
        return
    owner, group, text = found
    yield f"Its list was then {text}, its owner user {owner}, and its group {group}."
    if denied.by == "owner":
        yield f"User {caller.uid} is not the owner, and nobody else may do that."
    else:
        yield (
            f"User {caller.uid} of groups {caller.groups} {case_of(text, owner, group, caller)}. What decided is"
            f" {denied.by}."
        )
