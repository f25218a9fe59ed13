"""python3 tools scenario SEED [LINES]

Writes a random script of `suites play`: users who make, read, write, list, drop and guard files and folders, with
servers that crash and restart, agents that stop in the middle of a job, sweeps, forgotten caches, and votes that are
moved. The same SEED gives the same script. LINES is about how many events it has (default 120).
"""
import random
import sys

from common import console, forms

PATHS = ["/a", "/b", "/d", "/d/a", "/d/b", "/d/e", "/d/e/a", "/e", "/e/a"]
FOLDERS = ["/", "/d", "/d/e", "/e"]
# What there is at first, so that most of what is asked for is there.
FIRST = [
    "folder /d 777 ; file /d/a 666 ; folder /d/e 777",
    "file /a 666 ; write /a 6869",
    "folder /e 775 ; file /e/a 664",
]
USERS = [(1000, "100"), (2000, "100,300"), (3000, "300"), (4000, "200,100")]
LISTS = [
    "u::rwx,g::rwx,o::rwx",
    "u::rw,g::r,o::-",
    "u::rwx,u:lisa:rwx,g::rx,m::rwx,o::-",
    "u::rwx,g::-,g:team:rx,m::rx,o::x",
    "u::rwx,u:4000:rw,g::rwx,m::r,o::r",
    "u::rwx,g::rwx,o::rx,d:u::rwx,d:u:lisa:rwx,d:g::rx,d:m::rwx,d:o::-",
]
# How often an operation is drawn; of one that is not named here SELDOM.
OFTEN, SELDOM = {"read": 20, "write": 20, "list": 8, "file": 10, "folder": 5, "drop": 5, "setacl": 8, "getvotes": 3}, 6
EVENTS = {"whole": 36, "begin": 14, "step": 22, "run": 8, "crash": 5, "return": 9, "sweep": 4, "forget": 2, "heal": 3}
MODES = ["777", "755", "750", "700", "666", "644", "640", "600", "077"]
ROOTS = ["777", "777", "755", "u::rwx,u:2000:rwx,g::rwx,m::rwx,o::rx"]


class Scenario:
    """A script that is being written."""

    def __init__(self, seed: int, length: int) -> None:
        self.dice, self.length = random.Random(seed), length
        self.servers, self.agents = self.dice.randint(1, 6), self.dice.randint(2, 6)
        self.down: set[int] = set()
        self.lines: list[str] = []
        self.likely = {"/", "/a", "/d", "/d/a", "/d/e", "/e", "/e/a"}

    def say(self, *words: object) -> None:
        self.lines.append(" ".join(map(str, words)))

    def votes(self) -> str:
        """Valid votes of some of the servers."""
        while True:
            shares = [self.dice.choice([None, 0, 1, 1, 1, 2]) if self.servers > 1 else 1 for _ in range(self.servers)]
            total = sum(share or 0 for share in shares)
            if not total:
                continue
            w = self.dice.randint(total // 2 + 1, total)
            r = self.dice.randint(total - w + 1, total)
            while shares[-1] is None:
                shares.pop()
            return ",".join("-" if share is None else str(share) for share in shares) + f"/{r}/{w}"

    def first(self) -> str:
        """The votes that the service opens with: of as few servers as make it last."""
        total = min(self.servers, self.dice.randint(1, 4))
        w = total // 2 + 1
        return f"{','.join(['1'] * total)}/{total - w + 1}/{w}"

    def bytes(self) -> str:
        return "".join(f"{self.dice.randrange(256):02x}" for _ in range(self.dice.choice([0, 1, 2, 5, 40]))) or "-"

    def initial(self) -> str:
        init = self.dice.choice(MODES) if self.dice.random() < 0.6 else self.dice.choice(LISTS)
        return f"{init} {self.votes()}" if self.dice.random() < 0.15 else init

    def operation(self) -> str:
        kind = self.dice.choices(list(forms.OPERATIONS), [OFTEN.get(kind, SELDOM) for kind in forms.OPERATIONS])[0]
        if self.dice.random() < 0.04:
            path = self.dice.choice(["/", "/d/e/x", "a", "/a/b"])
        elif kind in ("list", "folder"):
            path = self.dice.choice(FOLDERS)
        elif kind in ("file", "drop"):
            path = self.dice.choice(PATHS)
        else:
            path = self.dice.choice(sorted(self.likely))
        self.likely |= {path} if kind in ("file", "folder") else set()
        self.likely -= {path} if kind == "drop" and self.dice.random() < 0.5 else set()
        after = {
            "HEX": self.bytes,
            "INIT [VOTES]": self.initial,
            "LIST": lambda: self.dice.choice(LISTS),
            "VOTES": self.votes,
        }
        more = forms.OPERATIONS[kind].places.partition(" ")[2]
        return f"{kind} {path}" + (f" {after[more]()}" if more else "")

    def begin(self, agent: int) -> None:
        uid, groups = self.dice.choice(USERS[: 1 if self.dice.random() < 0.4 else len(USERS)])
        count = self.dice.choice([1, 1, 1, 2, 3]) if self.dice.random() < 0.98 else 9
        site = self.dice.choice([0, 0, 0, 3])
        self.say("begin", agent, uid, groups, site, " ; ".join(self.operation() for _ in range(count)))

    def heal(self) -> None:
        """All servers restart, and what was left behind is swept."""
        for server in sorted(self.down):
            self.say("return", server)
        self.down.clear()
        agent = self.dice.randrange(self.agents)
        self.say("run", agent)
        for server in range(self.servers):
            self.say("sweep", agent, server)
            self.say("run", agent)

    def event(self) -> None:
        agent, server = self.dice.randrange(self.agents), self.dice.randrange(self.servers)
        what = self.dice.choices([*EVENTS], [*EVENTS.values()])[0]
        if what in ("whole", "begin"):
            self.begin(agent)
        if what in ("whole", "run"):
            self.say("run", agent)
        elif what == "step":
            self.say("step", agent, self.dice.choice([1, 1, 2, 3, 5, 8]))
        elif what == "crash":
            if len(self.down) < self.servers - 1:
                self.down.add(server)
                self.say("crash", server)
        elif what == "return":
            for down in sorted(self.down)[:1]:
                self.down.discard(down)
                self.say("return", down)
        elif what == "sweep":
            self.say("sweep", agent, server)
        elif what == "forget":
            self.say("forget", agent, self.dice.choice([0, 3]))
        elif what == "heal":
            self.heal()

    def script(self) -> str:
        self.say("servers", self.servers)
        self.say("agents", self.agents)
        self.say("votes", self.first())
        self.say("root 1000 100", self.dice.choice(ROOTS))
        self.say("cache", *self.dice.choice([(0, 0, 0), (4096, 4096, 16), (64, 32, 3), (100000, 100, 8)]))
        self.say("user lisa 3000")
        self.say("group team 300")
        for ops in FIRST:
            self.say("begin 0 1000 100 0", ops)
            self.say("run 0")
        while len(self.lines) < self.length:
            self.event()
        self.heal()
        for server in range(self.servers):
            self.say("audit", server)
        return "\n".join(self.lines) + "\n"


def main() -> int:
    read = console.words(__doc__)
    read.add_argument("seed", type=int)
    read.add_argument("lines", type=int, nargs="?", default=120)
    given = read.parse_args()
    sys.stdout.write(Scenario(given.seed, given.lines).script())
    return 0
