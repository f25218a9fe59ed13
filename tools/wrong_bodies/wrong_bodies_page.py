"""Prints each wrong body, an edit that makes a function or a definition wrong and that the prover has to refuse.

    python3 tools wrong_bodies_page           prints them as a page, crate by crate
    python3 tools wrong_bodies_page --check   prints only what is wrong with an edit's words, with status 1

The first line of an edit says what it makes wrong (`why: ..`), the second which function refuses it and by which
clause (`refused by: ..`). ./suites --test runs --check. What those of the crates that all runs go through would do,
were they not refused, bench/harm.py prints.
"""
import collections
import itertools
import typing

from common import console, crates, text_of
from wrong_bodies import changes, wrong_bodies

# (those in must-fail, of which the ledger does not tell yet, are tried by `rt ci`)
PLACES = (("must-fail", "gate"), (wrong_bodies.GATE, "gate"), (wrong_bodies.BESIDE, "beside"))
# The bodies that a reader of the service's rules asks for first, by their plain names, and of those that no clause can
# refuse the test that does.
ASKED = """
    joined_groups mask_on_owner mask_on_other groups_after_user always_other decided_by_cache stale_content
    evicts_newest chain_keeps_evicted own_prefix_cached votes_to_new_quorum_only write_quorums_apart
    version_before_quorum polled_again invented_cause never_decides always_unavailable denial_without_decision
    copies_changed_at_prepare prepared_lost_in_crash prepare_under_shared_lock second_decide_overwrites
    job_run_whole_at_begin decode_accepts_disorder decode_accepts_rest fresh_server_each_time
    answer_from_fresh_server another_request_served dropped_write opening_kept always_certified never_certified
    decisions_by_finish lost_job doubled_job invented_ending
""".split()
BY_TESTS = {
    "one_lock_for_all": "`a_list_overlaps_a_sweep` of `run_tests`: two servers are asked at one time",
    "always_memory": "the rows of `crates/rows`, each of which has its status and its lines",
}
HEAD = """# Wrong bodies

Each line is an edit that makes a function, a definition or a condition wrong. The prover must refuse it: if it does
not, a contract is too weak. The gate holds those marked `gate`; one marked `beside` was refused when it was last tried,
or its last column says that it was not tried yet. That column names the function, and in brackets the clause or the
definition that the edit breaks. A function with one clause is named alone. There are {gate} in the gate and {beside}
beside it.
"""
BY_NAME = """## By name

The bodies that a reader of the service's rules asks for first. No clause can refuse the last two, so a test does.

| Wrong body | Its edit |
|---|---|
"""


def edits() -> typing.Iterator[tuple[str, str, str]]:
    """Each edit: its crate, whether it stands in the gate or beside it, and its path."""
    for crate in crates.listed():
        for folder, place in PLACES:
            yield from ((crate, place, path) for path in wrong_bodies.edits(crate, folder))


def words_of(text: str) -> dict[str, str]:
    """What the lines `why: ..` and `refused by: ..` of an edit say."""
    parted = (line.partition(": ") for line in text.split("\n"))
    return {word: rest for word, _, rest in parted if word in changes.TOLD}


def row(crate: str, place: str, path: str, faults: list[str]) -> str:
    """The line of an edit in the table of its crate. What is wrong with it is added to the faults."""
    name, words = wrong_bodies.name_of(path), words_of(text_of(path))
    faults += [f"{crate}/{name}: it has no line '{word}: ..'" for word in changes.TOLD if not words.get(word)]
    if any("|" in text for text in words.values()):
        faults.append(f"{crate}/{name}: a word has a |, which a table cannot show")
    return f"| {' | '.join([f'`{name}`', place, *(words.get(word, '') for word in changes.TOLD)])} |"


def by_name(faults: list[str]) -> str:
    """The table of the bodies that are asked for first. One without an edit is added to the faults."""
    places: dict[str, list[str]] = {name: [] for name in ASKED}
    for crate, place, path in edits():
        if wrong_bodies.name_of(path) in places:
            places[wrong_bodies.name_of(path)].append(f"`{crate}` ({place})")
    faults += [f"{name}: there is no such edit" for name, found in places.items() if not found]
    lines = [f"| `{name}` | {', '.join(found)} |" for name, found in places.items()]
    lines += [f"| `{name}` | {test} |" for name, test in BY_TESTS.items()]
    return BY_NAME + "\n".join(lines) + "\n"


def whole_page() -> tuple[str, list[str]]:
    """The page, and what is wrong with the edits."""
    counts, faults = collections.Counter(place for _, place, _ in edits()), list[str]()
    parts = [HEAD.format(**counts)]
    for crate, those in itertools.groupby(edits(), lambda edit: edit[0]):
        head = [f"## `{crate}`\n", "| Wrong body | Tried | What it makes wrong | Refused by |", "|---|---|---|---|"]
        parts.append("\n".join([*head, *(row(*edit, faults) for edit in those), ""]))
    return "\n".join([*parts, by_name(faults)]), faults


def main() -> int:
    read = console.words(__doc__)
    read.add_argument("--check", action="store_true")
    only_looks = read.parse_args().check
    page, faults = whole_page()
    print("\n".join(faults) if only_looks or faults else page, end="\n" if faults else "")
    return 1 if faults else 0
