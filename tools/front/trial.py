"""python3 tools trial WORD...

All that a checked build rests on inside the kit: `rt try` makes the program as a file of LLVM's, `module.bc`, in a
folder below TMPDIR, with its checks at run time; the kit's clang compiles it, and the kit's linker links it with its
C libraries.

Where a kit does it otherwise, no module is found. Then this file as a command stands in for the program: it runs
`rt try -- WORD...` on its standard input, which compiles the program each time.
"""
import contextlib
import os
import pathlib
import shutil
import subprocess
import sys
import tempfile
import typing

from common import console
from front import sources

MODULE = "module.bc"
# As the kit itself compiles: these keep passes of clang out that are known to err.
PASSES = (
    "-no-trap-after-noreturn -trap-unreachable -no-x86-call-frame-opt -disable-machine-licm"
    " -disable-postra-machine-licm -sink-common-insts=false"
)
CAREFUL = [word for option in PASSES.split() for word in ("-mllvm", option)]
LEVEL = "-O1"


class Hidden(console.Stop):
    """The kit lacks what makes a program of a module: this is kept, and whatever else fails is tried again."""

    def __init__(self, what: str) -> None:
        super().__init__(f"this kit has no {what}")


def folder_of(program: str) -> str:
    return os.path.join(sources.CRATES, program)


def is_whole(module: bytes, program: str) -> bool:
    """Whether bytes are the module of a program to its end: blocks, each with its length behind four bytes, until they
    are used up. The small one with which `rt try` tries its compiler has no such function.
    """
    place = 4
    while place + 8 <= len(module):
        place += 8 + 4 * int.from_bytes(module[place + 4 : place + 8], "little")
    return place == len(module) and f"{program}::main".encode() in module


def found(scratch: str, program: str) -> bytes | None:
    """The program's module below this folder, once it is whole."""
    for path in pathlib.Path(scratch).rglob(MODULE):
        with contextlib.suppress(FileNotFoundError):
            module = path.read_bytes()
            if is_whole(module, program):
                return module
    return None


def module_into(folder: str, tick: typing.Callable[[], None], program: str = sources.PROGRAM) -> str:
    """Writes the program's module into this folder; `tick` is called while that lasts. Answers its path. A kit that
    shows none shows none a second time: on a busy machine one may be missed."""
    try:
        return module_once(folder, "scratch", tick, program)
    except Hidden:
        return module_once(folder, "again", tick, program)


def module_once(folder: str, name: str, tick: typing.Callable[[], None], program: str) -> str:
    """Looks for the module once."""
    scratch = os.path.join(folder, name)
    os.mkdir(scratch)
    module: bytes | None = None

    def is_found() -> bool:
        nonlocal module
        tick()
        module = found(scratch, program)
        return module is not None

    settings = {**os.environ, "TMPDIR": scratch}
    status, said = console.watched(["rt", "try", "--", "--help"], folder_of(program), is_found, env=settings)
    if module is None:
        if status == 0 and "run=ended" in said:
            raise Hidden("module of the program")
        if status < 0:
            raise console.Stop(f"{console.ended('rt', status)}; the next time it is tried again")
        raise console.Stop("the sources do not compile:\n" + console.tail(said).rstrip())
    path = os.path.join(folder, MODULE)
    pathlib.Path(path).write_bytes(module)
    return path


def kit() -> str:
    """The folder of the kit, whose first page `rt doc` names."""
    said = subprocess.run(["rt", "doc"], stdin=subprocess.DEVNULL, capture_output=True, text=True)
    if said.returncode != 0 or not said.stdout.strip():
        raise console.Stop(f"where the kit is, was not told: {console.ended('rt', said.returncode)}")
    return os.path.dirname(said.stdout.strip())


def clang() -> str:
    return os.path.join(kit(), "toolchain", "bin", "clang")


def libraries() -> list[str]:
    return [os.path.join(kit(), "c", name) for name in ("libos_c.a", "liblibc_c.a")]


def done(words: list[str], folder: str, tick: typing.Callable[[], None]) -> None:
    """Runs a command in this folder, which has to end well; `tick` is called while it lasts."""
    if not os.path.exists(words[0]):
        raise Hidden(words[0])
    status, said = console.watched(words, folder, tick)
    if status != 0:
        why, told = console.ended(os.path.basename(words[0]), status), console.tail(said)
        raise console.Stop(f"the checked build failed, and the next time it is tried again: {why}\n{told}".rstrip())


def build(target: str, tick: typing.Callable[[], None], name: str = sources.PROGRAM) -> None:
    """Builds the program, or one of tests, to this file, with its checks at run time, and looks whether it runs."""
    home = kit()
    with tempfile.TemporaryDirectory(prefix="suites-") as folder:
        lacking = next((path for path in libraries() if not os.path.exists(path)), None)
        if lacking:
            raise Hidden(lacking)
        module = module_into(folder, tick, name)
        made, program = os.path.join(folder, "module.o"), os.path.join(folder, name)
        done([clang(), LEVEL, "-fPIE", *CAREFUL, "-w", "-c", module, "-o", made], folder, tick)
        link = [os.path.join(home, "bin", "rattle-link"), "--target", "x86_64-unknown-linux-gnu"]
        link += ["--toolchain", os.path.join(home, "toolchain"), "-o", program, made, *libraries()]
        done(link, folder, tick)
        done([program, "--help"], folder, tick)
        shutil.copyfile(program, target)
    os.chmod(target, 0o755)


def main() -> int:
    """Runs the program by `rt try`."""
    console.Teller().say(
        "this kit hands out no module, so `rt try` compiles the program anew for this run, some four minutes; not"
        " proved"
    )
    process = subprocess.Popen(["rt", "try", "--", *sys.argv[1:]], cwd=folder_of(sources.PROGRAM))
    try:
        return process.wait()
    except KeyboardInterrupt:
        process.terminate()
        process.wait()
        raise
