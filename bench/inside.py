#!/usr/bin/env python3
"""bench/inside.py NAME

Times calls of libraries by themselves (the best of five runs). NAME is one of

    cache    one cache with 16, 256 and 4,096 entries of one byte: puts, of which each lets the oldest entry go, looks
             for the oldest content, which is then the newest, hints of each in turn, the same beside a new entry for
             which the oldest would go, and the forgetting of all (told for each entry). What counts is how the time of
             a call grows
    copies   `encode` and `decode` of the largest copies (a file of 65,536 bytes, a folder of 1,024 names of 64 bytes,
             each with 128 entries and 32 representatives) beside a plain copy of the same bytes into a new vector
    locks    a request to a server by itself, and the same asked under the server's lock, where it is kept in the
             history
    server   one server: transactions of four requests with 10, 1,000 and 4,096 copies, and with 10 and 1,000 locks of
             other transactions; verdicts that are refused by who takes the reply, and taken; verdicts that stand and
             verdicts that are newly recorded, with 1,000 and 1,000,000 verdicts there, the new ones of an agent that
             began late (so that they land among the others and not behind them). What counts is how the time of a
             request grows

The programs (bench/NAME.rattle) are no crates of the repository: each is built in a scratch copy of it, by `rt run`.
"""
import sys
import typing

from measure import console, scratch

# So many times a copy is encoded, decoded or copied.
TIMES = 2000
EACH = f"{'us a request':>14}{'requests a second':>19}"


def of_requests(nanos: float) -> str:
    return f"{nanos / 1000:14.3f}{1e9 / nanos:19.0f}"


def of_cache(nanos: int, kind: str, entries: str, calls: str) -> str:
    return f"{kind:10}{entries:>10}{nanos / int(calls) / 1000:14.3f}"


def of_copies(nanos: int, kind: str, what: str, size: str) -> str:
    each = nanos / TIMES
    return f"{kind:8}{what:8}{size:>8}{each / 1000:9.1f}{1000 * int(size) / each:9.0f}"


def of_locks(nanos: int, kind: str, requests: str) -> str:
    return f"{kind:10}{of_requests(nanos / int(requests))}"


def of_server(nanos: int, kind: str, there: str, served: str) -> str:
    return f"{kind:10}{there:>10}{of_requests(nanos / int(served))}"


class Bench(typing.NamedTuple):
    """The crates that a program names, the words with which its lines begin, the head of the table, a line of it by
    the nanoseconds and the words in front of them, how many these are, and whether it stands behind the nanoseconds
    that all was answered as it is to be.
    """

    crates: str
    kinds: str
    head: str
    line: typing.Callable[..., str]
    front: int = 3
    tells: bool = False


BENCHES = {
    "cache": Bench("acl_core suite_content suite_prefix vote_core weak_cache", "put used hint beside forget",
                   f"{'':10}{'entries':>10}{'us a call':>14}", of_cache),
    "copies": Bench("acl_core suite_content suite_prefix vote_core", "encode decode plain",
                    f"{'':8}{'copy':8}{'bytes':>8}{'us':>9}{'MB/s':>9}", of_copies),
    "locks": Bench("acl_core rep_core server_lock suite_prefix vote_core", "bare locked", f"{'':10}{EACH}", of_locks,
                   2, True),
    "server": Bench("acl_core file_ops rep_core suite_content suite_prefix vote_core",
                    "copies locks told recorded refused taken", f"{'':10}{'there':>10}{EACH}", of_server, 3, True),
}  # fmt: skip


def main() -> None:
    read = console.words(__doc__)
    read.add_argument("name", choices=BENCHES)
    name = read.parse_args().name
    bench = BENCHES[name]
    print(bench.head)
    for runs in scratch.runs(name, bench.crates, bench.kinds.split()):
        if bench.tells and any(one[bench.front + 1] != "true" for one in runs):
            sys.exit(f"a request was answered otherwise: {runs}")
        print(bench.line(min(int(one[bench.front]) for one in runs), *runs[0][: bench.front]))


main()
