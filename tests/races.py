#!/usr/bin/env python3
"""tests/races.py [--runs N]

Looks for data races among agents in threads: builds the program as front/trial.py does, but with each function of its
module under clang's ThreadSanitizer and linked with gcc's libtsan (the package libgcc-12-dev), and runs scripts of
`serve` with 2 to 64 agents, N times each (default 2). A report is a race; what is printed has to be what `serve`
prints.

The same once more is the control: linked so that each atomic of the module is one of memory_order_relaxed, whatever it
was written as, so that nothing that one thread wrote is ordered before what another reads. There reports have to come,
else nothing is looked at. Status 1 where a race was reported, and where the control has none.

Both programs stay in out/ until a source changes; `rt` is needed to build them, some minutes, and `clang` is the kit's.
Where MODULE names a module that was made before (the one of tools/front/trial.py), they are made of that one.
"""
import os
import re
import tempfile
import typing

import played

from common import console, text_of
from front import sources, trial

AGENTS = (2, 4, 8, 16, 32, 64)
SCRIPTS = ("files", "sweepers", "revocation")
REPORT = "WARNING: ThreadSanitizer: "
LAST = re.compile(r"certified [0-9]+ steps\n\Z")
# What clang calls for these, and libtsan of gcc has under their own names alone.
SHIM = "\n".join(
    f"void *{name}({words}); void *__tsan_{name}({words}) {{ return {name}(a, b, n); }}"
    for name, words in (
        ("memset", "void *a, int b, unsigned long n"),
        ("memcpy", "void *a, const void *b, unsigned long n"),
        ("memmove", "void *a, const void *b, unsigned long n"),
    )
)
# What clang calls in place of an atomic of so many bits (`long` stands for their type), whose last words say how it is
# ordered: its answer, its words, what is handed on of them.
ATOMICS = {
    "load": ("long", "void *a, int o", "a, 0"),
    "store": ("void", "void *a, long b, int o", "a, b, 0"),
    "compare_exchange_val": ("long", "void *a, long b, long c, int o, int p", "a, b, c, 0, 0"),
    "compare_exchange_strong": ("int", "void *a, void *b, long c, int o, int p", "a, b, c, 0, 0"),
    "compare_exchange_weak": ("int", "void *a, void *b, long c, int o, int p", "a, b, c, 0, 0"),
    **{
        name: ("long", "void *a, long b, int o", "a, b, 0")
        for name in ("exchange", "fetch_add", "fetch_sub", "fetch_and", "fetch_or", "fetch_xor", "fetch_nand")
    },
}
BITS = {8: "unsigned char", 16: "unsigned short", 32: "unsigned", 64: "unsigned long"}
FENCE = "__tsan_atomic_thread_fence"
ORDERED = re.compile(r"R_X86_64_\w+ +(__tsan_atomic\w+)")


def sanitized(text: str) -> str:
    """The text of a module, with each function under the sanitizer."""
    text = re.sub(r"^(attributes #\d+ = \{)", r"\1 sanitize_thread", text, flags=re.M)
    return re.sub(r"^(define (?:(?! #\d).)*\))((?:(?! #\d).)*\{)$", r"\1 sanitize_thread\2", text, flags=re.M)


def weakened() -> tuple[list[str], str]:
    """What the linker is told for the control, and the C that its atomics call: the sanitizer's own, with nothing
    ordered.
    """
    lines, names = [f"void __wrap_{FENCE}(int o) {{ }}"], [FENCE]
    for bits, of in BITS.items():
        for what, parts in ATOMICS.items():
            answer, words, handed = (part.replace("long", of) for part in parts)
            name = f"__tsan_atomic{bits}_{what}"
            lines.append(
                f"{answer} __real_{name}({words}); {answer} __wrap_{name}({words})"
                f" {{ return __real_{name}({handed}); }}"
            )
            names.append(name)
    return [f"-Wl,--wrap={name}" for name in names], "\n".join(lines)


def done(words: list[str], folder: str) -> str:
    """Runs a command, which has to end well; what it prints."""
    ended = played.done(words, cwd=folder)
    if ended.status != 0:
        raise console.Stop(f"{' '.join(words[:2])} ..: status {ended.status}: {console.tail(ended.err)}")
    return ended.out


def linked(folder: str, made: str, target: str, options: typing.Sequence[str] = (), text: str = "") -> None:
    """Links a program of what was made, with these options and this C besides."""
    source, shim = os.path.join(folder, "shim.c"), os.path.join(folder, "shim.o")
    played.put(source, f"{SHIM}\n{text}\n")
    done(["gcc", "-w", "-O1", "-fno-builtin", "-fPIE", "-c", source, "-o", shim], folder)
    done(["gcc", "-fsanitize=thread", "-pie", *options, "-o", target, shim, made, *trial.libraries()], folder)


def built() -> tuple[str, str, int]:
    """The paths of the program and of the control, and how many calls of atomics are weakened in it; builds them where
    they are not there.
    """
    mark = os.path.join(sources.KEPT, "races.json")
    paths = [os.path.join(sources.KEPT, name) for name in ("races", "races-weakened")]
    module = os.environ.get("MODULE")
    now, kept = sources.sum_of(module) if module else sources.Sources().code, sources.read_json(mark)
    if kept.get("sources") == now and all(map(os.path.exists, paths)):
        return paths[0], paths[1], kept["calls"]
    console.Teller().say("building the program under the sanitizer, and its control, some minutes")
    sources.make_folder()
    with tempfile.TemporaryDirectory(prefix="suites-") as folder:
        module = os.path.abspath(module) if module else trial.module_into(folder, lambda: None)
        plain, text, made = (os.path.join(folder, name) for name in ("plain.ll", "sanitized.ll", "sanitized.o"))
        done([trial.clang(), "-S", "-emit-llvm", "-Xclang", "-disable-llvm-passes", "-w", module, "-o", plain], folder)
        played.put(text, sanitized(played.got(plain).decode("latin1")).encode("latin1"))
        done(
            [trial.clang(), trial.LEVEL, "-fPIE", *trial.CAREFUL, "-w", "-fsanitize=thread", "-c", text, "-o", made],
            folder,
        )
        options, weak = weakened()
        calls = ORDERED.findall(done(["objdump", "-r", made], folder))
        if unknown := {name for name in calls if f"-Wl,--wrap={name}" not in options}:
            raise console.Stop(f"the control does not weaken {', '.join(sorted(unknown))}")
        linked(folder, made, paths[0])
        linked(folder, made, paths[1], options, weak)
    sources.write_whole(mark, f'{{"sources": "{now}", "calls": {len(calls)}}}')
    return paths[0], paths[1], len(calls)


def reports(program: str, runs: int, with_names: bool) -> tuple[int, int, int]:
    """How many runs of a program there were, how many reports of them, and how many did not end as `serve` does. The
    first report is printed where names are wanted; without them a report is had ten times sooner.
    """
    count, found, other = 0, 0, 0
    options = f"exitcode=0 halt_on_error=0 report_thread_leaks=0 symbolize={int(with_names)}"
    for name in SCRIPTS:
        script = text_of("examples", "serve", f"{name}.script")
        for agents in AGENTS * runs:
            # the sanitizer wants its memory at fixed places
            words = ["setarch", os.uname().machine, "-R", program, "serve", "--agents", str(agents)]
            ended = played.done(words, script, env={**os.environ, "TSAN_OPTIONS": options})
            count += 1
            if with_names and not found and REPORT in ended.err:
                told = ended.err.partition(REPORT)[2].partition("==================")[0]
                print(f"{name} with {agents} agents: {REPORT}{told}")
            found += ended.err.count(REPORT)
            other += ended.status != 0 or not LAST.search(ended.out)
            if REPORT not in ended.err and ended.err:
                raise console.Stop(f"the program says: {console.tail(ended.err)}")
    return count, found, other


def looks(tally: played.Tally) -> None:
    program, control, calls = built()
    count, found, other = reports(program, tally.given.runs, True)
    tally.count = count
    tally.fails(found and f"{found} reports of a race", other and f"{other} runs did not end certified")
    again, seen, _ = reports(control, tally.given.runs, False)
    tally.holds(seen, "the control has no report")
    print(f"control: {calls} calls of atomics weakened, {again} runs: {seen} reports")


if __name__ == "__main__":
    played.plays(__doc__, f"runs with {AGENTS[0]} to {AGENTS[-1]} agents, and the control", looks, runs=2)
