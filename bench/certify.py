#!/usr/bin/env python3
"""bench/certify.py [SCRIPT]

Times `certify` on what one agent and three servers left of some 40,000 requests: files are made, and then written and
read one after the other, without caches (the best of five runs). With SCRIPT, the jobs are written there too, for a
program that takes them in a script.

The program (bench/certify.rattle) is no crate of the repository: it is built in a scratch copy of it, by `rt run`.
"""
import sys

from measure import console, scratch
import scripting

FILES, ROUNDS = 100, 20
CRATES = "acl_core file_ops rep_core run_certify run_core server_lock suite_content suite_prefix txn_core vote_core"


def script() -> str:
    """The same jobs as a script."""
    lines = [f"do 1000 100 0 file /f{number} 644" for number in range(FILES)]
    for _ in range(ROUNDS):
        for number in range(FILES):
            lines += [f"do 1000 100 0 write /f{number} 6869", f"do 1000 100 0 read /f{number}"]
    return scripting.header(agents=None) + "".join(f"{line}\n" for line in lines)


def main() -> None:
    read = console.words(__doc__)
    read.add_argument("file", nargs="?", help="where the script is written to, and nothing is measured")
    given = read.parse_args()
    if given.file:
        with open(given.file, "w", encoding="utf-8") as file:
            file.write(script())
        return
    (timed,) = scratch.runs("certify", CRATES, ("certified",))
    _, items, decisions, _ = timed[0]
    if int(decisions) != FILES + 2 * FILES * ROUNDS:
        sys.exit(f"not all was decided: {timed[0]}")
    nanos = min(int(one[3]) for one in timed)
    print(
        f"{items} items, {decisions} decisions: {nanos / 1e6:.1f} ms, {nanos / int(items) / 1000:.3f} us an item,"
        f" {int(items) * 1e9 / nanos:.0f} items a second"
    )


main()
