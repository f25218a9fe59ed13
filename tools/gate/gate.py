"""The gate: runs all tests that need no proof (test.py, `./suites --test`) but those that `rt ci` runs too, and where
they pass `rt ci`, and the wrong bodies behind it; tells before its last line what each step cost, beside its bound.

What passes and what fails in `rt ci` is rt's alone: its output and its status are handed on as they are. Where all
passed, status 1 is left for a bound that is passed (bounds.py). Where nothing has changed of what an earlier pass
proved (passed.py), nothing is proved. The environment variable SUITES_GATE_TIMES names a file that is to keep the times
(gate_times.py makes a table of it), and RT_JOBS fixes how many checks rt runs side by side.
"""
import importlib
import importlib.util
import os
import re
import resource
import subprocess
import time

from common import console, memory, of_kit, tool
from gate import bounds, gate_times, passed

# The most memory that nearly any check was seen to take, in bytes, and how much of what is free may be taken.
LANE, SHARE = 2_800_000_000, 0.95
# Where a control group sets a quota of processor time.
QUOTAS = (
    ("/sys/fs/cgroup/cpu.max", "/sys/fs/cgroup/cpu.max", r" (\d+)"),
    ("/sys/fs/cgroup/cpu/cpu.cfs_quota_us", "/sys/fs/cgroup/cpu/cpu.cfs_period_us", r"^(\d+)"),
)
# Tries wrong bodies: a function `step` of this module, which answers how many were not refused.
BODIES = "wrong_bodies.gate_step"


def processors() -> int:
    """How many processors there are to use, under the quota of a control group too."""
    quotas = [(memory.number_in(quota), memory.number_in(period, pattern)) for quota, period, pattern in QUOTAS]
    return min(
        [len(os.sched_getaffinity(0)), *(max(quota // period, 1) for quota, period in quotas if quota and period)]
    )


def lanes() -> int | None:
    """How many checks are to run side by side, or none, where that is left to rt.

    By itself rt begins a check only where as much memory is free as it reckons from the lines of the crate and of those
    below: 8.3 GB for txn_core, 7.8 for library_tests, 3 to 5 for most others. No check was seen to take more than 2.7
    but the tests of library_tests, which take 5.4 towards their end (a check that is killed is begun once more),
    so processors stand idle for nothing: two with 8 GB free work as one and a quarter, and four with 20 GB as three.
    RT_JOBS fixes the lanes, whatever is reckoned. A proof then keeps to one process, where it else may take an idle
    processor for a second one; but with a lane for each processor, none is idle before the last of the chain of crates.
    """
    if os.environ.get("RT_JOBS"):
        return None
    found = min(processors(), int(SHARE * memory.free() / LANE))
    return found if found > 1 else None


def spent() -> float:
    """Processor seconds of this process and of what it waited for."""
    used = [resource.getrusage(whose) for whose in (resource.RUSAGE_SELF, resource.RUSAGE_CHILDREN)]
    return sum(one.ru_utime + one.ru_stime for one in used)


class Run:
    """A run of the gate: its lanes, and what its steps cost."""

    def __init__(self, number: int | None) -> None:
        self.number, self.begun = number, time.monotonic()
        self.side = number or max(int(os.environ.get("RT_JOBS") or 1), 1)
        self.most = bounds.kept()
        self.apart = 0.0
        self.kit, self.last = self.timed(), ""
        self.times: bounds.Times = {}

    def timed(self) -> float:
        """Times the kit's example, apart from the steps."""
        before = spent()
        found = bounds.seconds_of_kit(self.side)
        self.apart += spent() - before
        return found

    def prove(self) -> int:
        """Runs `rt ci`, and tells all that it prints but its last line; its status."""
        given = {**os.environ, **({"RT_JOBS": str(self.number)} if self.number else {})}
        with subprocess.Popen(
            of_kit("ci"), env=given, stdout=subprocess.PIPE, stderr=subprocess.STDOUT, errors="replace"
        ) as gate:
            watch = gate_times.Watch(gate.pid)
            watch.start()
            for line in gate.stdout:
                print(self.last, end="", flush=True)
                self.last = line
            status = gate.wait()
        watch.ended.set()
        watch.join()
        self.times = watch.times()
        return status

    def try_bodies(self) -> int:
        """Tries wrong bodies, where there is what does; how many were not refused."""
        if importlib.util.find_spec(BODIES) is None:
            return 0
        before = spent()
        faults = importlib.import_module(BODIES).step(self.side)
        self.times[bounds.BODIES] = self.times.get(bounds.BODIES, 0.0) + spent() - before
        return faults

    def tell(self) -> list[str]:
        """Tells what each step cost, and keeps it where that was asked for; the bounds that are passed."""
        self.times[bounds.ELSE] = max(spent() - self.apart - sum(self.times.values()), 0.0)
        path, slower = os.environ.get("SUITES_GATE_TIMES"), self.kit / self.most[bounds.KIT][0]
        try:
            if path:
                gate_times.write(self.times, path)
        except OSError as error:
            print(f"warning: the times were not kept in {path}: {error.strerror}")
        if bounds.passed(self.times, self.most, slower):
            self.kit = max(self.kit, self.timed())
            slower = self.kit / self.most[bounds.KIT][0]
        print(
            f"the gate took {(time.monotonic() - self.begun) / 60:.1f} minutes behind the tests with {self.side} checks"
            f" side by side; the kit's example took {self.kit:.1f} s, so bounds are taken {slower:.2f} times:"
        )
        print(*bounds.lines(self.times, self.most, slower), sep="\n", flush=True)
        return bounds.passed(self.times, self.most, slower)


def tree() -> str:
    """The sum of what is proved here; none where none can be made, which is told."""
    try:
        said = subprocess.run(["rt", "version"], stdin=subprocess.DEVNULL, capture_output=True, text=True)
        return passed.summed(said.stdout.strip())
    except (passed.Unknown, OSError) as why:
        print(f"no sum of the sources is kept: {why}", flush=True)
        return ""


def is_proved(total: str) -> bool:
    """Whether this sum passed before this landing; tells why not."""
    try:
        said = passed.known(total)
    except passed.Unknown as why:
        print(f"all is proved: {why}", flush=True)
        return False
    print(f"nothing is proved, since all that proofs, programs and their tests are made from passed the gate {said}")
    return True


def summary(line: str, faults: int) -> str:
    """The last line of rt with faults that rt does not know."""
    found = re.fullmatch(r"(\d+) passed, (\d+) failed\s*", line)
    return f"{found[1]} passed, {int(found[2]) + faults} failed\n" if found else line


def main() -> int:
    console.words(__doc__).parse_args()
    if subprocess.run(tool("test", "--gate"), stdin=subprocess.DEVNULL).returncode != 0:
        return 1
    total = tree()
    if total and is_proved(total):
        print("1 passed, 0 failed")
        return 0
    run = Run(lanes())
    status = run.prove()
    faults = run.try_bodies() if status == 0 else 0
    over = run.tell()
    print(*(f"FAILED: {line}" for line in over), sep="\n", end="\n" if over else "")
    print(summary(run.last, faults + len(over)), end="", flush=True)
    if status != 0 or faults or over:
        return status or 1
    if total and total == tree():
        passed.add(total, spent() / 60)
    return 0
