"""Whether histories and transcripts are those of one run: judged without `certify`, for tests/lies.py.

The pair is woven into a script of `play`: the items of all servers by stamp and then by server, and before each what
its agent did up to its next request; last what is left of each agent. `trace` plays the script. Then what was served
has to be the items, in their order: who asked whom, the words of request and reply, and the stamps, which are counted
here (a reply's is one above the greater of the server's and the request's; an agent's request has that of its last
reply, the operator's 0). What each agent did has to be its transcript, with how each job ended.

Words do not tell all of a request and a reply. So the program that tells lies gives equal ones one number, and a
request of an agent's job at the same step as in the run as it was, with the same words, has to have its number. A step
that was not in that run, of a job that was not begun there, leaves the case open, where all else agrees: "open". What
no script can say is a request that was not served for want of room or memory: "unsaid".
"""
import functools
import re
import typing

from traced import OUTCOME, REQUEST, blocks, lines_of


class Item(typing.NamedTuple):
    """One thing that a server served; the operator is no agent."""

    stamp: int
    agent: int | None
    sent: int
    numbers: tuple[int, int] | None
    server: int
    request: str
    reply: str


# An entry of a transcript is its words.
Element = Item | tuple[str, ...]
# The histories of servers and the transcripts of agents, by which of both and by number.
Lists = dict[tuple[str, int], list[Element]]
# The transaction, the first job that asks for the same, and the answer.
Decision = tuple[int, int, str]


class Said(typing.NamedTuple):
    """What is said of a pair: the verdict, why, and what was decided where it is a run."""

    verdict: str
    why: str
    decided: list[Decision] | None


ITEM = re.compile(r"item (\d+) (\d+|-) (\d+) (\d+) (\d+)(  .*)")
DECIDE = re.compile(r"t (\d+) decide (?:answered|refused)$")
OPERATOR = {"crash", "return"}


class Mismatch(Exception):
    """The pair is no run; says why."""


class Unsaid(Exception):
    """No script can say what the pair tells."""


def element(line: str) -> Element:
    """An item or an entry as the liar prints it."""
    found = ITEM.match(line)
    if not found:
        return tuple(line.split(" ", 1)) if line.startswith("ended ") else tuple(line.split())
    _, server, request, reply = REQUEST.match(found[6]).groups()
    agent = None if found[2] == "-" else int(found[2])
    return Item(int(found[1]), agent, int(found[3]), (int(found[4]), int(found[5])), int(server), request, reply)


def decision(text: str) -> Decision:
    """A decision as the liar prints it: the transaction, the first job that asks for the same, and the answer."""
    t, job, _, _, answer = text.split(" ", 4)
    return int(t), int(job), answer


@functools.lru_cache(maxsize=256)
def traced(script: str) -> list[tuple[str, list[str]]]:
    """The lines that `trace` prints below each event of a script, and those of the events."""
    return [(head[2:], block) for head, block in blocks(lines_of(script)) if head[0] == ">"]


class Played:
    """A woven pair as `trace` plays it: what was served, what each agent did, and what was decided."""

    def __init__(self, servers: int, agents: int) -> None:
        self.stamps, self.last, self.down = [0] * servers, [0] * agents, set[int]()
        self.counts, self.jobs, self.asked = [0] * agents, [0] * agents, [0] * agents
        self.served: list[Item] = []
        self.told: list[list[Element]] = [[] for _ in range(agents)]
        # of what is served for an agent: the agent, which job of it, which request of that, and what the job is
        self.steps: list[tuple[int, int, int, int] | None] = []
        self.decisions: list[tuple[int, int, tuple[int, int]]] = []
        self.ends: dict[tuple[int, int], str] = {}

    def stamp(self, server: int, sent: int) -> int:
        self.stamps[server] = max(self.stamps[server], sent) + 1
        return self.stamps[server]

    def operate(self, what: str, server: int) -> None:
        reply = "down" if what == "crash" and server in self.down else "done"
        (self.down.add if what == "crash" else self.down.discard)(server)
        self.served.append(Item(self.stamp(server, 0), None, 0, None, server, what, reply))
        self.steps.append(None)

    def begin(self, agent: int, job: int) -> None:
        self.told[agent].append(("begun", str(job)))
        self.jobs[agent], self.asked[agent] = job, 0
        self.counts[agent] += 1

    def step(self, agent: int, block: list[str]) -> None:
        request = REQUEST.match(block[0])
        if not request or request[4] == "full":
            raise Mismatch(block[0].strip())
        server, sent = int(request[2]), self.last[agent]
        self.last[agent] = stamp = self.stamp(server, sent)
        self.served.append(Item(stamp, agent, sent, None, server, request[3], request[4]))
        self.steps.append((agent, self.counts[agent], self.asked[agent], self.jobs[agent]))
        self.told[agent].append(("asked", str(server), str(stamp)))
        self.asked[agent] += 1
        decide = DECIDE.match(request[3])
        if decide and request[4] in ("verdict answered", "verdict refused"):
            self.decisions.append((int(decide[1]), self.jobs[agent], (agent, self.counts[agent] - 1)))
        for line in block[1:]:
            self.told[agent].append(("ended", line))

    def end(self, block: list[str]) -> None:
        """Keeps how jobs ended."""
        for outcome in filter(None, map(OUTCOME.match, block)):
            self.ends[int(outcome[1]), int(outcome[2])] = outcome[4]


class Judge:
    """Judges pairs that come of one run, which is given as it was."""

    def __init__(self, script: str, agents: int, lists: Lists) -> None:
        lines = [line for line in script.split("\n") if line.strip() and not line.startswith("#")]
        first = next(place for place, line in enumerate(lines) if line.startswith(("do ", "sweep ")))
        self.jobs = [line for line in lines if line.startswith(("do ", "sweep "))]
        self.agents, self.servers = agents, int(lines[0].split()[1])
        self.header = "\n".join([lines[0], f"agents {agents}", *lines[1:first]]) + "\n"
        self.lists, self.known = lists, {}
        self.size = sum(len(list_) for (kind, _), list_ in lists.items() if kind == "history")
        play = self.played({})
        for key, own, item in zip(play.steps, play.served, self.merged({})):
            if key:
                self.known[key[:3], self.jobs[key[3]], own.server, own.request, own.reply] = item.numbers

    def list_of(self, kind: str, number: int, changed: Lists) -> list[typing.Any]:
        return changed.get((kind, number), self.lists.get((kind, number), []))

    def merged(self, changed: Lists) -> list[Item]:
        """All items, by stamp and then by server."""
        items = []
        for server in range(self.servers):
            history = self.list_of("history", server, changed)
            if any(one.stamp > next_.stamp for one, next_ in zip(history, history[1:])):
                raise Mismatch(f"stamps fall at server {server}")
            items += [item._replace(server=server) for item in history]
        return sorted(items, key=lambda item: (item.stamp, item.server))

    def events(self, changed: Lists) -> typing.Iterator[tuple[typing.Any, ...]]:
        """The events that a pair says, in their order."""
        left = [iter(self.list_of("transcript", agent, changed)) for agent in range(self.agents)]
        for item in self.merged(changed):
            if item.agent is None and item.request in OPERATOR:
                yield (item.request, item.server)
            for entry in left[item.agent] if item.agent is not None and item.agent < self.agents else ():
                yield (*entry, item.agent)
                if entry[0] == "asked":
                    break
        for agent, entries in enumerate(left):
            for entry in entries:
                yield (*entry, agent)

    def lines(self, changed: Lists) -> typing.Iterator[tuple[str, tuple[typing.Any, ...]]]:
        """The same, as lines of a script with what they stand for."""
        for event in self.events(changed):
            if event[0] in OPERATOR:
                yield f"{event[0]} {event[1]}", event
            elif event[0] == "begun":
                job = self.jobs[int(event[1])]
                yield (f"begin {event[2]} {job[3:]}" if job.startswith("do ") else f"sweep {event[2]} {job[6:]}"), event
            elif event[0] == "asked":
                yield f"step {event[-1]}", event
            elif event[0] == "lacked":
                raise Unsaid
            elif event[0] == "forgot":
                if int(event[1]) > 15:
                    raise Mismatch(f"there is no site {event[1]}")
                yield f"forget {event[2]} {event[1]}", event

    def played(self, changed: Lists) -> Played:
        """What comes of a pair where it is played. At the end all jobs go on, so that it is told what was decided in
        them.
        """
        lines = list(self.lines(changed))
        rest = [f"run {agent}" for agent in range(self.agents)]
        blocks = traced(self.header + "".join(f"{line}\n" for line in [*(line for line, _ in lines), *rest]))
        play = Played(self.servers, self.agents)
        for (_, event), (head, block) in zip(lines, blocks):
            if block and block[0].startswith("  nothing happens"):
                raise Mismatch(f"{head}: {block[0].strip()}")
            if event[0] in OPERATOR:
                play.operate(*event)
            elif event[0] == "begun":
                play.begin(event[2], int(event[1]))
            elif event[0] == "forgot":
                play.told[event[2]].append(event[:2])
            else:
                play.step(event[-1], block)
        for _, block in blocks:
            play.end(block)
        return play

    def differs(self, play: Played, changed: Lists) -> bool:
        """Looks whether all that is told is what was played. Answers whether that is left open."""
        is_open, items = False, self.merged(changed)
        for key, own, item in zip(play.steps, play.served, items):
            if item._replace(numbers=None) != own:
                raise Mismatch(f"{item} told, {own} played")
            wanted = (
                self.known.get((key[:3], self.jobs[key[3]], own.server, own.request, own.reply))
                if key
                else item.numbers
            )
            is_open |= wanted is None
            if wanted not in (None, item.numbers):
                raise Mismatch(f"{item} is of the words of {wanted}, and is another")
        if len(items) != len(play.served):
            raise Mismatch(f"{len(items)} items told, {len(play.served)} played")
        for agent in range(self.agents):
            if self.list_of("transcript", agent, changed) != play.told[agent]:
                raise Mismatch(f"agent {agent} did something else")
        return is_open

    def asks(self, job: int) -> int:
        """The first job that asks for the same as a transaction does, at whichever site."""

        def key(line: str) -> object:
            words = line.split()
            return [words[1:3], words[4:]] if words[0] == "do" else line

        return next(place for place, line in enumerate(self.jobs) if key(line) == key(self.jobs[job]))

    def judge(self, changed: Lists) -> Said:
        """What is to be said of a pair that has other lists in place of these."""
        try:
            play = self.played(changed)
            is_open = self.differs(play, changed)
        except Unsaid:
            return Said("unsaid", "", None)
        except Mismatch as why:
            return Said("found out", str(why), None)
        decided = [(t, self.asks(job), play.ends[of]) for t, job, of in play.decisions]
        return Said("open" if is_open else "a run", "", decided)
