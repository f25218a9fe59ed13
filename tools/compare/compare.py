"""python3 tools compare SCRIPT..
python3 tools compare --seeds COUNT [--from SEED] [--lines LINES]

Plays a script of `suites play`, writes the transactions that it decided as a script of `suites table`, in the order of
their decisions (as the events of `./suites trace` tell it), and compares the answers of both: every reply, every
refusal, every denial with its entry, and the servers' audits. Numbers of what was made differ, since they come of the
number of the transaction, and are mapped. A transaction whose agent stopped after it was decided has no answer in
`play`: of it is compared whether it was answered or refused. With --seeds it does so for scripts of scenario.py.
Status 1 where something differs, or a script cannot be played.
"""
import collections
import itertools
import re
import sys

from common import built, console, numbers
from compare import scenario
from explain import denials
from explain.play_lines import Played
from trace.events import OF_SERVERS, Event, decided, events_of
from trace.lines import printed

NUMBERED = re.compile(r"\b(made|suite) (\d+)")
HEADER = {"servers", "agents", "votes", "root", "cache", "user", "group"}


def output(command: str, script: str) -> list[str]:
    status, told = built.asked(command, script, path=built.chosen()[1])
    if status != 0:
        raise console.Stop(f"{console.ended('suites', status)}: {told.strip()}")
    return told.splitlines()


class Run(Played):
    """A run as its events show it, with the audits behind the last decision, which tell all denials."""

    def __init__(self, told: list[Event]) -> None:
        super().__init__(told, told)
        self.audits: dict[int, list[str]] = {}
        for event in told:
            if decided(event):
                self.audits.clear()
            if "audit" in event:
                self.audits[event["audit"]["server"]] = [*printed(event)][1:]


def with_votes(op: str, votes: str) -> str:
    """An operation, which says with which votes it makes something."""
    return f"{op} {votes}" if op.split()[0] in ("file", "folder") and len(op.split()) == 3 else op


def table_script(script: str, run: Run) -> str:
    """The decided transactions as a script of `table`, of which the first gives the root folder its votes."""
    votes = next(line.split()[1] for line in script.splitlines() if line.split()[:1] == ["votes"])
    lines = denials.header_of(script)
    lines.append(f"do {' '.join(lines[0].split()[1:3])} setvotes / {votes}")
    asked = [run.jobs[t].asked() for t in run.decided]
    lines += [one._replace(operations=[with_votes(op, votes) for op in one.operations]).line() for one in asked]
    return "\n".join(lines) + "\n"


def mapped(text: str, places: dict[int, int]) -> str:
    """A text of `play` with the numbers that `table` gave to what was made."""
    def number(found: re.Match[str]) -> str:
        suite = int(found[2])
        if not suite:
            return found[0]
        t, place = numbers.maker_of(suite)
        return f"{found[1]} {numbers.suite(places[t], place) if t in places else f'of t {t}'}"
    return NUMBERED.sub(number, text)


def differences(script: str) -> tuple[list[str], collections.Counter[str]]:
    """What differs between a script's run and the plain table; and what there was to compare."""
    events = events_of(script.encode("latin1"))
    run = Run(events)
    told_of = [line for line, _ in run.printed]
    wrong = [] if output("play", script) == told_of else ["play and trace print different lines"]
    found, told = differences_of(run, output("table", table_script(script, run)))
    told["requests"] = sum(event["kind"] == "request" for event in events)
    verbs = (event["text"].split()[0] for event in events if event["kind"] == "line")
    told.update(f"events: {verb}" for verb in verbs if verb in (*OF_SERVERS, "sweep", "forget"))
    return wrong + found, told


def differences_of(run: Run, table: list[str]) -> tuple[list[str], collections.Counter[str]]:
    """What differs between a run and what `table` prints of its decided transactions; and what was compared."""
    told: collections.Counter[str] = collections.Counter()
    wrong = list[str]()
    answers = [line.partition(" ")[2] for line in table][1:]
    places = {t: place for place, t in enumerate(run.decided, 1)}
    audits: dict[int, list[str]] = {server: [] for server in run.audits}
    if len(answers) != len(run.decided):
        wrong.append(f"{len(run.decided)} transactions are decided, and table answers {len(answers)}")
    for t, answer in zip(run.decided, answers):
        job = run.jobs[t]
        ending = job.ending.split(" ", 2)[-1]
        told[f"decided: {answer.split()[0]}"] += 1
        if not ending:
            told["decided, and the agent stopped"] += 1
        if mapped(ending, places) != (answer if ending else ""):
            wrong.append(f"t {t}: play says {ending}, and table {answer}")
        if (job.verdict == "answered") != answer.startswith("answered"):
            wrong.append(f"t {t}: decided {job.verdict}, and table says {answer}")
        if answer.startswith("denied") and run.home(job) in audits:
            audits[run.home(job)].append(f"t {t} uid {job.words[2]} {answer[len('denied '):]}")
    for t, job in run.jobs.items():
        if t not in places and job.operations:
            ending = job.ending.split(" ", 2)[-1]
            told[f"undecided {ending.split()[1]}" if ending else "undecided, and the agent stopped"] += 1
            if ending and not ending.startswith("undecided"):
                wrong.append(f"t {t}: ended as {ending}, and was never decided")
    for server, items in audits.items():
        if [mapped(item, places) for item in run.audits[server]] != items:
            wrong.append(f"audit {server}: {run.audits[server]}, wanted {items}")
    told["audits"] = len(audits)
    return wrong, told


def main() -> int:
    read = console.words(__doc__)
    read.add_argument("scripts", nargs="*")
    read.add_argument("--seeds", type=int, default=0)
    read.add_argument("--from", type=int, default=0, dest="first")
    read.add_argument("--lines", type=int, default=120)
    given = read.parse_args()
    if not given.scripts and not given.seeds:
        print(__doc__.partition("\n\n")[0], file=sys.stderr)
        return 2
    scripts = [(name, open(name, encoding="latin1").read()) for name in given.scripts]
    seeds = range(given.first, given.first + given.seeds)
    total: collections.Counter[str] = collections.Counter()
    wrong = 0
    written = ((f"seed {seed}", scenario.Scenario(seed, given.lines).script()) for seed in seeds)
    for name, script in itertools.chain(scripts, written):
        found, told = differences(script)
        total.update(told)
        for line in found:
            print(f"{name}: {line}")
        wrong += bool(found)
    print(f"{len(scripts) + len(seeds)} scripts, {wrong} differ")
    for what in sorted(total):
        print(f"  {total[what]:8} {what}")
    return 1 if wrong else 0
