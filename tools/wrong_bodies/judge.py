"""What comes of a check of a crate with a wrong body: whether the prover refuses it, and where.

A check that fails is no refusal by itself: it may have been killed, have met a limit, or not have read the text. And
one whose proof names what the edit took away says nothing of the contract. The words are those of the kit's `rt` and
`rattle`.
"""
import re
import typing

from wrong_bodies import kit

# It is refused; only by a limit of the prover's own; only where a proof names what is gone; its text cannot be read;
# nothing is known; or all that was checked is proved.
REFUSED, LIMIT, LOST, BAD, UNSURE, PROVED = "refused", "limit", "lost name", "bad edit", "not tried", "NOT REFUSED"
LIMITS = re.compile(
    r"antt ran out of (?:stack|the (?:steps|memory) that the check of one declaration may (?:take|use))"
    r"|(?:outgrew the memory limit|stopped at the step limit) \("
)
STALE = re.compile(r"module .Rattle-\w+-.*Run the lower steps again")
ERROR = re.compile(r"(?:note: )?(?:\./)?(?P<file>\S+?):\d+:\d+:(?P<text>.*)")
# A proof file that names what the edit took away, and what cites that proof.
NAMES = re.compile(r"(?:note: )?(?:\./)?proofs/.*(?:has no field|is not in scope|has no `|was not admitted)")
UNREAD = re.compile(r"(?:\./)?(?P<file>\S+?):\d+:\d+: error: (?P<of>`[^`]*`: )?(?P<text>.*)")
UNREADABLE = re.compile(
    r"is not in scope|has no field|is no name|operand is missing|expected the end|cannot continue"
)
ONLY = re.compile(r"only=(\d+) proved=(\d+)")
UNPROVED = re.compile(r"fn (\S+): (?:not proved|no proof)", re.M)
SAID = 160


class Verdict(typing.NamedTuple):
    """What came of it, the function and the clause that refused it, and the prover's first words."""

    kind: str
    function: str = ""
    clause: str = ""
    said: str = ""


def is_unread(line: str, changed: typing.Container[str]) -> bool:
    """Whether a text of src/ or specs/, or one that was changed, could not be read; one that is false only is read."""
    found = UNREAD.match(line)
    if not found or found["file"] not in changed and not found["file"].startswith(("src/", "specs/")):
        return False
    return not found["of"] or bool(UNREADABLE.search(re.sub(r"`[^`]*`", "", found["text"])))


def clause_of(line: str) -> str:
    """What an error is of, the goal that it names or else its file: without what a comment moves."""
    found = ERROR.match(line)
    named = found and re.search(r"`([^`\s]+)`", found["text"])
    return named[1] if named else found["file"] if found else ""


def refused(lines: list[str], crate: str) -> Verdict:
    told = [it for it in lines if re.match(r"(?:note: )?\S+:\d+:\d+:", it)]
    told = [it for it in told if ": error" in it or it.startswith("note: ")] or told
    first = next((it for it in told if not NAMES.match(it)), "")
    functions = UNPROVED.findall("\n".join(lines))
    function = functions[0].removeprefix(f"{crate}::") if functions else ""
    if told and not first:
        return Verdict(LOST, function, "", told[0][:SAID])
    return Verdict(REFUSED, function, clause_of(first), first[:SAID])


def of_check(seen: kit.Seen, crate: str, changed: typing.Container[str]) -> Verdict:
    """What comes of a check of a crate, whole or of some functions, in which these files were changed."""
    lines = seen.text.rstrip("\n").split("\n")
    if STALE.search(seen.text):
        return Verdict(UNSURE, said="the kept work of a library could not be used")
    if seen.status == 0:
        return Verdict(PROVED, said="all that was checked is proved with it")
    if seen.status == 1:
        unread = next((it for it in lines if is_unread(it, changed)), "")
        only = ONLY.fullmatch(lines[-1])
        if unread:
            return Verdict(BAD, said=unread[:SAID])
        if lines[-1].startswith("logic=not-proved") or only and int(only[2]) < int(only[1]):
            return refused(lines, crate)
        compiler = next((it for it in lines if re.search(r"\berror\[[\w-]+\]", it)), "")
        if compiler:
            return Verdict(BAD, said=compiler[:SAID])
    limit = next((it for it in lines if LIMITS.search(it)), "")
    if seen.status == 3 and limit:
        return Verdict(LIMIT, said=next((it for it in lines if UNREAD.match(it)), limit)[:SAID])
    return Verdict(UNSURE, said=f"its check ended with status {seen.status}: {lines[-1][:SAID]}")
