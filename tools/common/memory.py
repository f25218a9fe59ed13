"""How much memory is free, how much a program may have of it, and how much it has."""
import contextlib
import os
import pathlib
import re
import resource

# Where a control group sets a limit of memory and what it holds of that.
LIMITS = (
    ("/sys/fs/cgroup/memory.max", "/sys/fs/cgroup/memory.stat", r"^anon (\d+)"),
    ("/sys/fs/cgroup/memory/memory.limit_in_bytes", "/sys/fs/cgroup/memory/memory.stat", r"^total_rss (\d+)"),
)
# What is left to others of the memory that is free, in bytes.
LEFT = 256 << 20


def number_in(path: str, pattern: str = r"^(\d+)") -> int | None:
    with contextlib.suppress(OSError):
        for found in re.finditer(pattern, pathlib.Path(path).read_text(encoding="utf-8"), re.M):
            return int(found[1])
    return None


def free() -> int:
    """The bytes of memory that are free, under the limit of a control group too."""
    limits = [(number_in(limit), number_in(held, pattern)) for limit, held, pattern in LIMITS]
    return min(
        [
            1024 * (number_in("/proc/meminfo", r"^MemAvailable:\s+(\d+)") or 0),
            *(limit - held for limit, held in limits if limit and held is not None),
        ]
    )


def limit() -> None:
    """Lets this process take no more memory than is free, so that it says so itself where memory runs out."""
    most = max(free() - LEFT, LEFT)
    soft, hard = resource.getrlimit(resource.RLIMIT_AS)
    limits = [one for one in (most, soft, hard) if one != resource.RLIM_INFINITY]
    resource.setrlimit(resource.RLIMIT_AS, (min(limits), hard))


def taken(process: int) -> tuple[int, int] | None:
    """The bytes that a process has taken, of so many; nothing where it has ended or may have any number."""
    with contextlib.suppress(OSError, ValueError, IndexError), open(f"/proc/{process}/statm", encoding="ascii") as file:
        most = resource.prlimit(process, resource.RLIMIT_AS)[0]
        pages = int(file.read().split()[0])
        if pages and most != resource.RLIM_INFINITY:
            return pages * os.sysconf("SC_PAGE_SIZE"), most
    return None
