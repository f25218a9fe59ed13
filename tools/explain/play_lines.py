"""What happened behind a line that `play` printed of a script: `./suites explain LINE SCRIPT`.

The script is played once more by the program of `./suites trace`, whose events tell which line of the script began the
job, which path a number is, which servers were down, who was in the way, and why a home was one.
"""
import functools
import re
import typing

from common import console, numbers, quoted
from explain import denials, faults, refusals
from trace import events, json_events, lines
from trace.paths import Paths

OUTCOME = re.compile(r"(\d+)\.(\d+) \d+ ((?:answered|denied|refused|undecided|swept)\b.*)")
AUDITED = re.compile(r"t (\d+) uid \d+ (op \d+ suite \d+ wants \S+ by \S+)")
WANTED = {
    "--x": "search it, to go on to what is in it",
    "-wx": "write and search it, to make or drop a name there",
    "---": "be its owner",
}
# Of so many servers and operations it is told one by one.
FEW = 8
# What of a request or a reply may be long, and is told by nothing here.
LONG = ("parts", "names", "bytes")


class Request(typing.NamedTuple):
    """A request and its reply, and the number of its event."""

    at: int
    server: int
    asked: events.Event
    reply: events.Event

    def asks(self, what: str, t: int) -> bool:
        """Whether it asks this of a transaction."""
        return self.asked.get("asks") == what and self.asked["t"] == t

    def is_for_lock(self, suite: int) -> bool:
        return self.asked.get("asks") in ("poll", "upgrade") and self.asked["suite"] == suite


class Job:
    """A job that was begun: its line of the script, and what it asked."""

    def __init__(self, agent: int, count: int, event: events.Event):
        self.agent, self.count, self.number, self.begun = agent, count, event["line"], event["event"]
        self.words = event["text"].split()
        self.requests: list[Request] = []
        # the number of the event with which it ended
        self.ended: int | None = None
        self.ending = self.verdict = ""

    @property
    def t(self) -> int:
        return numbers.transaction(self.agent, self.count)

    @property
    def operations(self) -> list[str]:
        return " ".join(self.words[5:]).split(" ; ") if self.words[0] == "begin" else []

    def asked(self) -> denials.Asked:
        return denials.Asked(self.words[2], self.words[3], self.operations)

    def name(self) -> str:
        return f"job {self.count} of agent {self.agent}"

    def about(self) -> str:
        return faults.about(self.number, self.words, 2, 5)


class Played:
    """A run by its events: its jobs, when servers crashed and came back, and what was printed."""

    def __init__(self, playing: typing.Iterable[events.Event], again: typing.Iterable[events.Event]):
        self.events, self.servers, self.paths = again, list[events.Event](), Paths()
        self.jobs: dict[int, Job] = {}
        self.busy: dict[int, Job] = {}
        self.counts: dict[int, int] = {}
        self.decided: list[int] = []
        # the lines of the script that did nothing
        self.silent: set[int] = set()
        # of each server: when it crashed or came back, whether it is up from there on, and the line of the script
        self.turns: dict[int, list[tuple[int, bool, int]]] = {}
        # what `play` printed, and by which line of the script
        self.printed: list[tuple[str, int]] = []
        for event in playing:
            # at last what there is at the end
            self.servers = event.get("servers", self.servers)
            if event["kind"] == "line":
                self.begin(event)
            elif event["kind"] == "request":
                self.take(event)
            self.printed += [(line, event["line"]) for line in lines.printed(event)]
            if "end" in event:
                job = self.busy.pop(event["end"]["agent"])
                job.ended, job.ending = event["event"], self.printed[-1][0]

    def begin(self, event: events.Event) -> None:
        begun, words = events.begun(event), event["text"].split()
        if "nothing" in event:
            self.silent.add(event["line"])
        elif begun:
            job = Job(*begun, event)
            self.counts[job.agent] = job.count + 1
            self.jobs[job.t] = self.busy[job.agent] = job
        elif words[0] in events.OF_SERVERS:
            turn = event["event"], words[0] == "return", event["line"]
            self.turns.setdefault(int(words[1]), []).append(turn)

    def take(self, event: events.Event) -> None:
        self.paths.learn(event)
        asked, reply = (
            {name: told for name, told in event.get(part, {}).items() if name not in LONG}
            for part in ("request", "reply")
        )
        self.busy[event["agent"]].requests.append(Request(event["event"], event["server"], asked, reply))
        decision = events.decided(event)
        if decision:
            self.jobs[decision[0]].verdict = decision[1]
            self.decided.append(decision[0])

    def home(self, job: Job) -> int:
        return numbers.home(job.agent, job.count, len(self.servers))

    def decided_before(self, job: Job) -> list[int]:
        """The transactions that were decided before a job's, or all where that was not."""
        return self.decided[: self.decided.index(job.t)] if job.t in self.decided else self.decided

    def down_since(self, server: int, at: int) -> int | None:
        """The line of the script with which a server crashed that is down at a moment."""
        turn = next((turn for turn in reversed(self.turns.get(server, [])) if turn[0] < at), None)
        return turn[2] if turn and not turn[1] else None

    def path(self, suite: int) -> str:
        """A file or folder by its path, where it is known, and its number."""
        if suite == 0:
            return "/ (suite 0, the root folder)"
        t, place = numbers.maker_of(suite)
        operations = self.jobs[t].operations if t in self.jobs else []
        known = self.paths.known.get(suite) or (operations[place].split()[1] if place < len(operations) else None)
        return f"{known} (suite {suite})" if known else f"suite {suite}"


@functools.cache
def played(script: bytes, name: str) -> Played:
    """The run of a script, by the command `trace`."""
    with events.Run(script, name) as run:
        return Played(run.play(), run)


# ---- why a job ended so


class Ended(typing.NamedTuple):
    """How a job of a run ended, with its parts as `trace --json` tells them; the script, and its line that ended it."""

    run: Played
    job: Job
    how: dict[str, typing.Any]
    script: str
    number: int

    def since(self, server: int) -> int | None:
        """The line of the script with which a server crashed that was down as the job ended."""
        return self.run.down_since(server, self.job.ended or 0)


def made(end: Ended) -> typing.Iterator[str]:
    """Each operation of an answered transaction with its reply."""
    for place, (operation, reply) in enumerate(zip(end.job.operations[:FEW], end.how["replies"]), 1):
        what = f"{numbers.OPERATIONS} * {end.job.t} + {place}: operation {place} of transaction {end.job.t}"
        why = f", which is {what}" if reply.startswith("made ") else ""
        yield f"Operation {place}, `{operation}`: {reply}{why}."


def denied(end: Ended) -> typing.Iterator[str]:
    """Which operation was denied where, and how the list came to that."""
    run, job, how, place = end.run, end.job, end.how, end.how["op"]
    path = run.path(how["suite"])
    wants = f"had to {WANTED[how['wants']]}" if how["wants"] in WANTED else f"wanted {how['wants']} of it"
    yield f"Operation {place}, `{job.operations[place - 1]}`, came to {path}, and {wants}."
    jobs = [run.jobs[t].asked() for t in run.decided_before(job)]
    yield from denials.told(end.script, jobs, job.asked(), denials.Denied(place, path.split(" (")[0], how["by"]))


def short_of_votes(end: Ended) -> typing.Iterator[str]:
    """Which servers with a vote were down; and where the votes were up all the same."""
    suite, asked = end.how["suite"], [one for one in end.job.requests if one.is_for_lock(end.how["suite"])]
    yield f"It wanted {end.how['of']} votes of {end.run.path(suite)}, and had {end.how['got']}."
    for server, one in sorted({one.server: one for one in asked}.items()):
        since, says = end.run.down_since(server, one.at), one.reply["says"]
        if says == "down":
            yield f"Server {server} has a vote, and was down, since line {since}: `return {server}` brings it back."
        elif says == "busy":
            yield f"Server {server} has a vote, and a lock of transaction {one.reply['holder']} was in the way there."
        else:
            yield f"Server {server} gave its vote."
    yield from lost_votes(end, not any(one.asked.get("mode") == "exclusive" for one in asked))


def lost_votes(end: Ended, is_read: bool) -> typing.Iterator[str]:
    """Where the votes were up all the same, once this line is played: nobody who was asked knew of it."""
    from votes import votes
    part = "".join(f"{line}\n" for line in faults.lines_of(end.script)[: end.number])
    try:
        suite = votes.left_by(part.encode("latin1")).suites.get(end.how["suite"])
    except console.Stop:
        return
    down = frozenset(server for server in range(len(end.run.servers)) if end.since(server) is not None)
    if suite and suite.is_up(down, is_read):
        yield (
            f"Its votes are {suite.newest().text()} by then, and enough of them are up: they were moved, and of the"
            " servers that were asked none that is up knows where to."
        )


def in_the_way(end: Ended) -> typing.Iterator[str]:
    """Who was in the way, and how that ends."""
    job, server, holder = end.job, end.how["server"], end.run.jobs.get(end.how["holder"])
    if not holder:
        return
    yield f"The holder, transaction {holder.t}, is {holder.name()}: {holder.about()}."
    if holder.ended is not None and holder.ended < job.ended:
        yield (
            f"That job has ended ({holder.ending}), and left a lock at server {server}, which could not be told: "
            f"`sweep {job.agent} {server}` ends it."
        )
        return
    home, going_on = end.run.home(holder), f"If agent {holder.agent} goes on (`run {holder.agent}`), it ends by itself."
    since = end.since(home)
    before = [one for one in holder.requests if one.server == server and one.at < job.ended]
    if not any(one.asks("prepare", holder.t) for one in before):
        yield (
            f"It is not prepared at server {server}. {going_on} If it has stopped for good, `sweep"
            f" {job.agent} {server}` breaks its locks there."
        )
    elif since is None:
        yield (
            f"It is prepared at server {server}; its home, server {home}, is up. {going_on} If it has stopped for good,"
            f" `sweep {job.agent} {server}` ends it as its home decided."
        )
    else:
        yield (
            f"It is prepared at server {server}, and its home, server {home}, is down since line {since}. Nobody can"
            f" tell how it ends, and no sweep ends it, before server {home} is back: `return {home}`, then `sweep"
            f" {job.agent} {server}`."
        )


def lock_lost(end: Ended) -> typing.Iterator[str]:
    """How a server lost a lock of the job."""
    job, server, since = end.job, end.how["server"], end.since(end.how["server"])
    crashed = [turn for turn in end.run.turns.get(server, []) if job.begun < turn[0] < job.ended and not turn[1]]
    if since is not None and not crashed:
        yield f"Server {server} was down, since line {since}: `return {server}` brings it back."
    for _, _, number in crashed:
        yield (
            f"Server {server} crashed in line {number}, in the middle of the job, and lost the locks that were not"
            " prepared."
        )
    for other in end.run.jobs.values():
        for one in other.requests:
            if one.server == server and one.asks("break", job.t) and job.begun < one.at < job.ended:
                yield f"The sweep of {other.name()} ({other.about()}) broke its lock at server {server}."
                return


def aborted(end: Ended) -> typing.Iterator[str]:
    """Which sweep had the transaction aborted."""
    for other in end.run.jobs.values():
        if any(one.asks("resolve", end.job.t) and one.reply.get("verdict") == "aborted" for one in other.requests):
            yield (
                f"The sweep of {other.name()} ({other.about()}) asked its home, server {end.run.home(end.job)}, which"
                " had no decision by then: so it is aborted for good."
            )
            return


def home_down(end: Ended) -> typing.Iterator[str]:
    """Which server its home is, and why."""
    job, home, count = end.job, end.run.home(end.job), len(end.run.servers)
    yield (
        f"Its home is server {home}: ({job.agent} + {job.count}) mod {count}, the number of the agent and"
        " that of the job together, modulo the number of servers."
    )
    if end.since(home) is not None:
        yield f"Server {home} is down, since line {end.since(home)}."
    tries = ((turn, numbers.home(job.agent, job.count + turn, count)) for turn in range(1, count + 1))
    turn, is_up = next(((turn, one) for turn, one in tries if end.since(one) is None), (0, home))
    if turn == 1:
        yield f"Begun again at once, it is job {job.count + 1}, whose home is server {is_up}, which was up then."
    elif turn:
        yield (
            f"Begun again at once, job {job.count + 1} has a home that was down then, too; job {job.count + turn}"
            f" is the first whose home was up, server {is_up}."
        )
    else:
        yield "No server was up then, so no transaction can be decided before one is back."


def why_refused(end: Ended) -> typing.Iterator[str]:
    """Which operation was refused, and what was there and what was not."""
    jobs = (end.run.jobs[t] for t in end.run.decided_before(end.job))
    before = [job.operations for job in jobs if job.verdict == "answered"]
    yield from refusals.told(end.how["code"], end.how.get("op", 0), end.job.operations, before)


def how_full(end: Ended) -> typing.Iterator[str]:
    """How many files and folders a server has at the end, which was full."""
    server = end.how["server"]
    count = sum(copy["kind"] != "absent" for copy in end.run.servers[server]["copies"])
    yield (
        f"Server {server} has {count:,} files and folders at the end of the script, dropped ones among them, and has"
        " room for 4,096."
    )


def swept(end: Ended) -> typing.Iterator[str]:
    """Whose transactions a sweep met."""
    told = dict[str, None]()
    for one in end.job.requests:
        if one.asked.get("asks") in ("resolve", "break"):
            t, said = one.asked["t"], events.word_of(one.reply.get("verdict", one.reply["says"]))
            what = (
                f"its home, server {one.server}, {'is down' if said == 'down' else f'says {said}'}"
                if one.asked["asks"] == "resolve"
                else "a lock of it that was not prepared is broken"
            )
            agent, number = numbers.job_of(t)
            told[f"Transaction {t}, job {number} of agent {agent}: {what}."] = None
    yield from told


# What tells how a job ended, by that, or by its code.
WHY = {
    "answered": made, "denied": denied, "refused": why_refused, "swept": swept, "U1": short_of_votes, "U2": in_the_way,
    "U3": lock_lost, "U4": aborted, "U5": home_down, "U6": how_full, "U7": lambda _: iter(()),
}


def found_line(run: Played, text: str, name: str) -> tuple[str, int]:
    """The line that the script prints so, and the line of the script that prints it."""
    for line, number in run.printed:
        if line == text or line.endswith(f" {text}"):
            return line, number
    near = quoted.nearest(text, [line for line, _ in run.printed])
    like = f" It prints: {near[0]}" if near else ""
    raise console.Stop(
        f"{name} prints no such line.{like} Was the script changed, or the line? ./suites play < {name} prints all"
    )


def as_traced(line: str) -> str:
    """A line of a trace without paths and rows of spaces."""
    return " ".join(re.sub(r"\S+=(?=suite \d)", "", line).partition("   behind: ")[0].split())


def of_trace(run: Played, text: str, name: str) -> list[str]:
    """What is told of a line that the trace of this run has, and `play` has not: where in the script it comes."""
    wanted, telling = as_traced(text), lines.Lines({})
    for event in run.events:
        if wanted not in map(as_traced, telling.of(event)):
            continue
        if event["kind"] == "standing":
            return [f"The trace tells at its end what each server has, once {name} is played."]
        is_line, is_request = wanted.startswith("> "), " -> s" in wanted
        told = f"It is line {event['line']} of {name}"
        told = told if is_line else f"The trace tells it of line {event['line']} of {name}"
        job = run.jobs.get(event.get("request", {}).get("t")) if is_request else None
        whose = f", and it is about transaction {job.t}, {job.name()}: {job.about()}" if job else ""
        return [f"{told}{whose}."]
    return []


def of_run(run: Played, text: str, script: str, name: str) -> list[str]:
    """What is told of a line that this run of a script printed."""
    traced = of_trace(run, text, name) if text not in {line for line, _ in run.printed} else []
    if traced:
        return traced
    line, number = found_line(run, text, name)
    outcome, audited = OUTCOME.match(line), AUDITED.match(line)
    if audited:
        job, how = run.jobs[int(audited[1])], json_events.ended(f"denied {audited[2]}")
        told = denied(Ended(run, job, how, script, number))
        return [f"Transaction {job.t} is {job.name()}: {job.about()}.", *told]
    if not outcome:
        return [f"It is printed by line {number} of {name}."]
    job = run.jobs[numbers.transaction(int(outcome[1]), int(outcome[2]))]
    how = json_events.ended(outcome[3])
    why = WHY[how["code"] if how["how"] == "undecided" else how["how"]]
    told = why(Ended(run, job, how, script, number))
    return [f"It is printed by line {number} of {name}, and was begun by {job.about()}.", *told]


def of_line(text: str, script: bytes, name: str) -> list[str]:
    """What is told of a line that `play` printed of this script."""
    return of_run(played(script, name), text, script.decode("latin1"), name)
