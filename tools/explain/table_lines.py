"""What stands in a script behind a line that `table` or `serve` printed: which line it is of, whose, and which path a
number is.
"""
import re
import typing

from common import console, numbers
from explain import denials, faults, refusals

OUTCOME = re.compile(r"(\d+) (?:(\d+) )?(answered|denied|refused|undecided|swept)\b ?(.*)")
REFUSED = re.compile(r"(F\d+) op (\d+)")
DENIED = re.compile(r"op (\d+) suite (\d+) wants (\S+) by (\S+)")
# What `serve` says of all jobs together.
WHOLE = re.compile(r"certified \d+ steps$|mismatch$")
# The places of the user, the groups and the first operation in the words of a job.
FIRST = {"table": 3, "serve": 4}


class Job(typing.NamedTuple):
    """A transaction or a sweep of a script, the number of its line, and the place of its first operation in that."""

    number: int
    words: list[str]
    operations: list[str]
    first: int

    def asked(self) -> denials.Asked:
        return denials.Asked(self.words[1], self.words[2], self.operations)

    def about(self) -> str:
        return faults.about(self.number, self.words, 1, self.first)


def jobs_of(script: str, language: str) -> list[Job]:
    """The transactions and sweeps of a script, in their order."""
    found, first = [], FIRST[language]
    for number, line in enumerate(faults.lines_of(script), 1):
        words = line.split()
        if words[:1] == ["do"] or (words[:1] == ["sweep"] and language == "serve"):
            found.append(Job(number, words, " ".join(words[first:]).split(" ; "), first))
    return found


def path_of(suite: int, jobs: list[Job]) -> str:
    """The path of what a script of `table` made, with its number."""
    t, place = numbers.maker_of(suite)
    if suite == 0:
        return "/"
    is_known = t < len(jobs) and place < len(jobs[t].operations)
    return jobs[t].operations[place].split()[1] if is_known else f"suite {suite}"


def whole(script: str, jobs: list[Job], name: str) -> str:
    """How many jobs a script of `serve` has, and how they are done."""
    lines = [line.split() for line in faults.lines_of(script)]
    at = lines.index(["together"]) if ["together"] in lines else len(lines)
    alone = sum(job.number <= at for job in jobs)
    return (
        f"{name} has {len(jobs)} jobs. Agent 0 does the first {alone} alone, one after the other, and all agents at"
        f" once do the other {len(jobs) - alone}; it is said of all of them together."
    )


def of_line(text: str, script: str, name: str, language: str) -> list[str]:
    """What is told of a line that a script of this command printed."""
    outcome, jobs = OUTCOME.match(text), jobs_of(script, language)
    if language == "serve" and WHOLE.match(text):
        return [whole(script, jobs, name)]
    if not outcome or int(outcome[1]) >= len(jobs) or (outcome[2] is None) == (language == "serve"):
        raise console.Stop(f"{name}, a script of `{language}`, prints no line as this one. Was it changed?")
    job, rest = jobs[int(outcome[1])], outcome[4]
    told = [f"It is of {job.about()}." + (" Which agent did it is chance." if language == "serve" else "")]
    if outcome[3] == "answered":
        told += [f"Operation {place}, `{operation}`: {reply}."
                 for place, (operation, reply) in enumerate(zip(job.operations, rest.split("; ")), 1)]
    # `table` does one after the other, so what was there is known
    before = [one.asked() for one in jobs[: int(outcome[1])]] if language == "table" else []
    refused, found = REFUSED.match(rest), DENIED.match(rest)
    if outcome[3] == "refused" and refused:
        answers = denials.answers(script, before) if before else []
        those = [one.operations for one, answer in zip(before, answers) if answer.split()[1:2] == ["answered"]]
        sentences = [*refusals.told(refused[1], int(refused[2]), job.operations, those)]
        told += sentences if language == "table" else sentences[:1]
    if found:
        place, suite = int(found[1]), int(found[2])
        path = path_of(suite, jobs) if language == "table" else f"suite {suite}"
        told.append(f"Operation {place}, `{job.operations[place - 1]}`, came to {path}, and wanted {found[3]} there.")
        if language == "table":
            told += denials.told(script, before, job.asked(), denials.Denied(place, path, found[4]))
    return told
