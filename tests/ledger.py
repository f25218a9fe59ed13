#!/usr/bin/env python3
"""tests/ledger.py

Looks what the ledger of wrong bodies takes to decide an edit: of a small repository, for each kind of change, of which
crates' edits the sum is another. Then what comes of a check, by how it ended and what it said: that nothing but a
refusal is taken for one. Then which lines the gate tries.
"""
import os
import subprocess
import tempfile
import unittest.mock

from played import Tally, plays, put

from common import text_of
from wrong_bodies import decides, gate_step, judge, kit, ledger, standing

KIT = "kit-1 logic 0"
NOW = 2_000_000_000
LIST = "low: thiserror\nmid: low\ntop: mid low\napart:\n"
EDIT = "why: none\nfile: src/lib.rt\nold: thing + 1\nnew: thing\n"
SOURCE = """//! A crate.
#![tactic(auto)]

ghost use Rattle.std.specs.Prelude.{◌≡◌};
ghost use Rattle.low.specs.Sizes.{size_of};

/// What it makes of a thing.
#[inline]
pub fn made(thing: u32) -> u32
    ensures { result ≡ size_of thing }
{
    hidden(thing + 1)
}

const fn fixed() -> u32 {
    7
}

#[inline]
fn hidden(thing: u32) -> u32
    ensures value { result ≡ thing }
{
    thing // the same
}

impl Clone for Thing {
    fn clone(&self) -> Thing {
        Thing
    }
}
"""
MACRO = "macro_rules! makes {\n    () => {\n        fn made() {\n            one()\n        }\n    };\n}\n"
SIZES = """use Rattle.std.specs.Prelude.{ℕ}

-- What a size is.
pub size_of : ℕ → ℕ
size_of thing = thing
"""
CONTRACTS = "pub same : Rattle.low.specs.contracts.hidden\n"
FACTS = """use Rattle.std.specs.Prelude.{◌≡◌, ℕ, true}
use Rattle.std.lemmas.Nat.{suc-injective}
use Rattle.low.proofs.Deep.{Depth}

-- Sizes rise.
pub sizes_rise : (n : ℕ) → n ≡ n → Shape n
sizes_rise n = search (between, suc-injective)
  unfolding size_of

between : (n : ℕ) → n ≡ true
between n = grind

abbrev Shape : ℕ → Type 0
Shape n = Depth n

◌~◌ : ℕ → ℕ → ℕ
a ~ b = a

ruleset steps = between
"""
DEEP = "pub Depth : ℕ → Type 0\nDepth n = inner n\n\npub other : Depth 0\nother = search\n"
OTHER = "pub elsewhere : ℕ\nelsewhere = 0\n"
ANSWERS = "use Rattle.low.proofs.Facts.{sizes_rise}\n\npub returns : goal.returns\nreturns c = sizes_rise 0\n"
FILES = {
    "crates.txt": LIST,
    **{f"crates/{name}/src/lib.rt": SOURCE for name in ("low", "mid", "top", "apart")},
    "crates/low/src/macros.rt": MACRO,
    "crates/low/specs/Sizes.antt": SIZES,
    "crates/low/proofs/Facts.antt": FACTS,
    "crates/low/proofs/Deep.antt": DEEP,
    "crates/low/proofs/Other.antt": OTHER,
    "crates/low/proofs/made/Answers.antt": "pub returns : goal.returns\nreturns c = search\n",
    "crates/mid/proofs/made/Answers.antt": ANSWERS,
}
NONE, LOW, CITED, ALL = "", "low", "low mid", "low mid top"
# A change of `low`, and of which crates the sum is another.
CODE, SPECS, PROOFS = "crates/low/src/lib.rt", "crates/low/specs/Sizes.antt", "crates/low/proofs/Facts.antt"
CHANGES = (
    ("a comment of the code", CODE, "// the same", "// no other", NONE),
    ("a comment of a definition", SPECS, "-- What a size is.", "-- More words.\n-- And more.", NONE),
    ("a comment of a lemma", PROOFS, "-- Sizes rise.", "-- They do.", NONE),
    ("a body", CODE, "hidden(thing + 1)", "hidden(thing + 2)", LOW),
    ("the body of what is private", CODE, "    thing // the same", "    thing + 0", LOW),
    ("a private clause", CODE, "ensures value { result", "ensures other { result", LOW),
    ("the attribute of what is private", CODE, "#[inline]\nfn hidden", "#[cold]\nfn hidden", LOW),
    ("a public clause", CODE, "result ≡ size_of thing", "result ≡ size_of 0", ALL),
    ("an attribute", CODE, "#[inline]\npub", "#[cold]\npub", ALL),
    ("what a function takes", CODE, "pub fn made(thing: u32)", "pub fn made(thing: u64)", ALL),
    ("a function for constants", CODE, "    7\n", "    8\n", ALL),
    ("the body of a trait's function", CODE, "        Thing\n", "        Thing::new()\n", LOW),
    ("a trait's function", CODE, "fn clone(&self)", "fn clone(&mut self)", ALL),
    ("an import of clauses", CODE, "Prelude.{◌≡◌}", "Other.{◌≡◌}", ALL),
    ("what a macro writes", "crates/low/src/macros.rt", "one()", "two()", ALL),
    ("a definition", SPECS, "size_of thing = thing", "size_of thing = 0", ALL),
    ("the layout of a definition", SPECS, "size_of thing = thing", "size_of thing =\n  thing", ALL),
    ("the statement of a lemma that is cited", PROOFS, "→ n ≡ n →", "→ 0 ≡ n →", CITED),
    ("another proof of it", PROOFS, "search (between, ", "grind (between, ", LOW),
    ("what only a proof imports", PROOFS, "Nat.{suc-injective}", "Int.{suc-injective}", LOW),
    ("what a statement imports", PROOFS, "Prelude.{◌≡◌, ℕ, true}", "Other.{◌≡◌, ℕ, true}", CITED),
    ("what no statement says", PROOFS, ", true}", ", true, false}", LOW),
    ("the statement of a private lemma", PROOFS, "between : (n : ℕ) → n ≡ true", "between : (n : ℕ) → n ≡ n", CITED),
    ("its proof", PROOFS, "between n = grind", "between n = search", LOW),
    ("an abbreviation", PROOFS, "Shape n = Depth n", "Shape n = Depth 0", CITED),
    ("an equation of an operator", PROOFS, "a ~ b = a", "a ~ b = b", CITED),
    ("what the reader does not know", PROOFS, "ruleset steps = between", "ruleset steps = before", CITED),
    ("a lemma that a cited file names", "crates/low/proofs/Deep.antt", "Depth : ℕ →", "Depth : ℤ →", CITED),
    ("another proof there", "crates/low/proofs/Deep.antt", "other = search", "other = grind", LOW),
    ("the statement of a lemma that is not cited", "crates/low/proofs/Other.antt", ": ℕ", ": ℤ", LOW),
    ("another proof of it", "crates/low/proofs/Other.antt", "elsewhere = 0", "elsewhere = 1", LOW),
    ("what proves a function", "crates/low/proofs/made/Answers.antt", "c = search", "c = grind", LOW),
    ("what a crate uses", "crates.txt", "low: thiserror", "low: anyhow", ALL),
    ("what another crate uses", "crates.txt", "apart:", "apart: anyhow", "apart"),
    ("the order of crates", "crates.txt", LIST, "apart:\ntop: mid low\nmid: low\nlow: thiserror\n", NONE),
    ("a new crate", "crates.txt", "apart:\n", "apart:\nnext: low\n", NONE),
)


def sums(room: str, of_kit: str = KIT, edit: str = EDIT) -> dict[str, str]:
    tree = decides.Tree(of_kit, room)
    return {name: tree.of_edit(name, edit) for name in ("low", "mid", "top", "apart")}


def other(one: dict[str, str], two: dict[str, str]) -> str:
    return " ".join(name for name in one if one[name] != two[name])


def changed(room: str, path: str, old: str, new: str) -> dict[str, str]:
    """The sums with a change, which is then taken back."""
    whole = text_of(room, path)
    assert whole.count(old) == 1, (path, old)
    put(os.path.join(room, path), whole.replace(old, new))
    try:
        return sums(room)
    finally:
        put(os.path.join(room, path), whole)


def decided(tally: Tally) -> None:
    with tempfile.TemporaryDirectory(prefix="suites-") as room:
        for path, text in FILES.items():
            os.makedirs(os.path.dirname(os.path.join(room, path)), exist_ok=True)
            put(os.path.join(room, path), text)
        base = sums(room)
        tally.holds(len({*base.values()}) == 4, "four crates", "their sums differ")
        for title, path, old, new, wanted in CHANGES:
            told = other(base, changed(room, path, old, new))
            tally.holds(told == wanted, title, told)
        told = other(base, sums(room, "kit-2 logic 0"))
        tally.holds(told == "low mid top apart", "another kit of the same logic", told)
        told = other(base, sums(room, edit=EDIT.replace("why: none", "why: some")))
        tally.holds(told == NONE, "other words of an edit", told)
        told = other(base, sums(room, edit=EDIT.replace("new: thing", "new: thing + 2")))
        tally.holds(told == "low mid top apart", "another edit", told)
        tally.holds(not any(sums(room, edit=EDIT.replace("old: thing", "old: nothing")).values()), "one that is lost")
        # (where a proof names what is no file, all lemmas count)
        put(os.path.join(room, "crates/mid/proofs/made/Answers.antt"), ANSWERS.replace("Facts.{", "{"))
        told = other(sums(room), changed(room, "crates/low/proofs/Other.antt", ": ℕ", ": ℤ"))
        tally.holds(told == CITED, "a lemma that may be cited", told)
        # (where definitions or lemmas name what functions promise, what is private counts)
        put(os.path.join(room, SPECS), SIZES + CONTRACTS)
        told = other(sums(room), changed(room, CODE, "ensures value { result", "ensures other { result"))
        tally.holds(told == ALL, "a private clause that is named", told)


ERROR = "./proofs/Set/add/Answers.antt:8:7: error: `returns`: the two types differ"
NOT_PROVED = "note: src/set.rt:16:1: it is not proved that what it ensures holds (`returns-then`); the facts allow it"
GONE = "./proofs/Set/add/Answers.antt:8:7: error: `c` has no field `left`"
LIMIT = "src/set.rt:16:1: error: antt ran out of memory: it outgrew the memory limit (2 GB)"
FUNCTION = "fn sets::Set::add: not proved"
# How a check ended, what it said, and what comes of it.
CHECKS: tuple[tuple[int, tuple[str, ...], judge.Verdict], ...] = (
    (1, (ERROR, FUNCTION, "only=1 proved=0"), judge.Verdict(judge.REFUSED, "Set::add", "returns")),
    (
        1,
        (NOT_PROVED, "fn sets::Set::add: no proof: expected", "only=2 proved=1"),
        judge.Verdict(judge.REFUSED, "Set::add", "returns-then"),
    ),
    (1, (ERROR, FUNCTION, "logic=not-proved"), judge.Verdict(judge.REFUSED, "Set::add", "returns")),
    (1, (GONE, ERROR, FUNCTION, "only=1 proved=0"), judge.Verdict(judge.REFUSED, "Set::add", "returns")),
    (1, (GONE, FUNCTION, "only=1 proved=0"), judge.Verdict(judge.LOST, "Set::add")),
    (0, ("only=1 proved=1",), judge.Verdict(judge.PROVED)),
    (0, ("logic=proved functions=3",), judge.Verdict(judge.PROVED)),
    (1, (ERROR, FUNCTION, "only=1 proved=1"), judge.Verdict(judge.UNSURE)),
    (-9, (ERROR, FUNCTION), judge.Verdict(judge.UNSURE)),
    (1, (ERROR, FUNCTION), judge.Verdict(judge.UNSURE)),
    (137, (ERROR, FUNCTION, "only=1 proved=0"), judge.Verdict(judge.UNSURE)),
    (2, ("rattle: `Set::add` fits no function",), judge.Verdict(judge.UNSURE)),
    (3, (LIMIT, "rattle: no verdict"), judge.Verdict(judge.LIMIT)),
    (3, (ERROR, "rattle: no verdict"), judge.Verdict(judge.UNSURE)),
    (1, ("src/set.rt:3:1: error: expected the end", FUNCTION, "only=1 proved=0"), judge.Verdict(judge.BAD)),
    (1, ("error[unresolved-name]: `left`",), judge.Verdict(judge.BAD)),
    (1, ("module `Rattle-low-specs` ..: Run the lower steps again", "only=1 proved=0"), judge.Verdict(judge.UNSURE)),
)


def judged(tally: Tally) -> None:
    for status, lines, wanted in CHECKS:
        found = judge.of_check(kit.Seen(status, "\n".join(lines) + "\n"), "sets", ("src/set.rt",))
        tally.holds(found[:3] == wanted[:3], (status, *lines), found)


def edit_of(crate: str, name: str, place: str = standing.GATE) -> standing.Edit:
    return standing.Edit(crate, name, place, EDIT, f"{crate}-{name}")


def picked(tally: Tally) -> None:
    """Looks which lines the gate tries."""
    edits = {it.key: it for it in [edit_of(crate, f"e{number}") for crate in ("low", "mid") for number in range(12)]}
    lines = {key: ledger.Line(it.sum, "f", "c") for key, it in edits.items()}
    some = gate_step.drawn(edits, "a")
    tally.holds(len(some) == 8 and len({crate for crate, _ in some}) == 1, "eight of one crate are drawn", [*some])
    tally.holds(some == gate_step.drawn(edits, "a"), "the same are drawn again")
    tally.holds(len({tuple(gate_step.drawn(edits, str(seed))) for seed in range(9)}) > 4, "others by another seed")
    tally.holds(not gate_step.drawn({}, "a"), "none of none")
    one = edits["low", "e3"]
    tally.holds(not ledger.is_stale(one, lines), "a line of the tree")
    for word, sum in (("another sum", "x"), ("one that does not apply", "")):
        tally.holds(ledger.is_stale(one._replace(sum=sum), lines), word)
    tally.holds(ledger.is_stale(edit_of("low", "e13"), lines), "no line")
    before = {**lines, one.key: ledger.Line(one.sum, "f", "another")}
    told = [*gate_step.new(edits, lines, before)]
    tally.holds(told == [one.key], "a line that says another clause is new", told)
    tally.holds(len(gate_step.new(edits, lines, {})) == 24, "all are new where nothing was before")
    says = judge.Verdict(judge.REFUSED, "f", "c")
    tally.holds(lines[one.key].says(says), "it says so")
    for word, verdict in (("another", says._replace(function="g")), ("killed", says._replace(kind=judge.UNSURE))):
        tally.holds(not lines[one.key].says(verdict), word, verdict)


def committed(room: str, hours: int, rows: str, *words: str) -> None:
    """Commits a ledger of these rows, as so many hours ago."""
    put(os.path.join(room, ledger.PATH), ",".join(ledger.HEAD) + "\n" + rows)
    at = f"@{NOW - 3600 * hours} +0000"
    who = {f"GIT_{of}_{it}": "x" for of in ("AUTHOR", "COMMITTER") for it in ("NAME", "EMAIL")}
    given = {**os.environ, **who, "GIT_COMMITTER_DATE": at, "GIT_AUTHOR_DATE": at}
    for command in (("add", "."), ("commit", "-qm", "x", *words)):
        subprocess.run(["git", *command], cwd=room, env=given, check=True)


def of_main(tally: Tally) -> None:
    """Looks what the gate takes for the lines of main before what lands."""
    low, mid = "low,e0,s,f,c\n", "mid,e1,s,f,c\n"
    with tempfile.TemporaryDirectory(prefix="suites-") as room, unittest.mock.patch.multiple(
        "wrong_bodies.gate_step", TOP=room
    ), unittest.mock.patch.multiple("wrong_bodies.ledger", TOP=room):
        os.mkdir(os.path.join(room, "docs"))
        tally.holds(gate_step.lines_before() == {}, "no repository")
        subprocess.run(["git", "init", "-q", room], check=True)
        committed(room, 6, low)
        tally.holds(gate_step.lines_before() == {}, "one commit alone")
        main = gate_step.git("rev-parse", "HEAD")
        subprocess.run(["git", "checkout", "-q", "--detach"], cwd=room, check=True)
        committed(room, 5, low + mid)
        side = gate_step.git("rev-parse", "HEAD")
        subprocess.run(["git", "reset", "-q", "--hard", main], cwd=room, check=True)
        committed(room, 2, low, "--allow-empty")
        tally.holds([*gate_step.lines_before()] == [("low", "e0")], "a session's commits are new")
        subprocess.run(["git", "merge", "--no-commit", "--no-ff", side], cwd=room, check=True, capture_output=True)
        committed(room, 0, low + mid)
        told = [*gate_step.lines_before()]
        tally.holds(told == [("low", "e0")], "what a side brings is new, however old", told)


if __name__ == "__main__":
    plays(__doc__, "looks at the ledger", decided, judged, picked, of_main)
