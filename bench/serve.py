#!/usr/bin/env python3
"""bench/serve.py [JOBS] [PROGRAM]

Has agents carry out so many jobs (20,000) at once with `suites serve`, and prints the jobs a second (by the least of
five runs) of 1, 2 and 4 agents: on files of their own, where no job is in another's way but for a file that comes
round, and on one file, where most are; with how many of the jobs were answered. Eight files are made before. A run
that is not certified ends the bench.
"""
import sys

import measure
import scripting

FILES = 8


def script(jobs: int, files: int) -> bytes:
    """A script of so many writes, on so many of the files in turn."""
    made = [f"do 1000 100 0 file /file-{number} 644" for number in range(FILES)]
    written = [f"do 1000 100 0 write /file-{number % files} 00" for number in range(jobs)]
    return (scripting.header(agents=None) + "\n".join([*made, "together", *written, ""])).encode()


def main() -> None:
    read = measure.console.words(__doc__)
    read.add_argument("jobs", nargs="?", type=int, default=20_000)
    read.add_argument("program", nargs="?", default=measure.PROGRAM)
    given = read.parse_args()
    jobs, program = given.jobs, given.program
    for name, files in (("files of their own", FILES), ("one file", 1)):
        for agents in (1, 2, 4):
            words = [program, "serve", "--agents", str(agents)]
            ran = measure.least("seconds", words, script(jobs, files))
            if ran.status != 0 or b"\ncertified " not in ran.output:
                sys.exit(f"{name}, {agents} agents: status {ran.status}")
            answered = ran.output.count(b" answered ") - FILES
            rate = f"{ran.seconds:7.3f} s {jobs / ran.seconds:9,.0f} jobs/s"
            print(f"{name:20} {agents} agents {rate} {answered:6} answered {ran.peak:6.1f} MiB")


if __name__ == "__main__":
    main()
