"""python3 tools NAME WORD..

Starts a tool, from any folder: each room is a package with what its tools share, and `common` has what all share.
`./suites NAME` starts those that are commands.
"""
import importlib
import sys

from common import console

ROOMS = {
    "front": "choose prove remarks trial",
    "session": "session dump",
    "explain": "explain",
    "trace": "trace draw",
    "show": "show",
    "votes": "votes",
    "explore": "explore",
    "judge": "judge record",
    "mount": "mount",
    "shell": "shell",
    "compare": "compare scenario",
    "pages": "shown named page_words proved_page forms_page",
    "wrong_bodies": "wrong_bodies wrong_bodies_page",
    "gate": "gate gate_times rt test",
}
TOOLS = {name: f"{room}.{name}" for room, names in ROOMS.items() for name in names.split()}
TOOLS |= {"may": "may.command", "import": "mount.importing"}


def unknown() -> int:
    raise console.Bad(f"python3 tools NAME WORD.., where NAME is one of {', '.join(TOOLS)}")


def main() -> None:
    name = sys.argv[1] if len(sys.argv) > 1 else ""
    if name not in TOOLS:
        console.run(unknown, "")
    sys.argv[:2] = [name]
    tool = importlib.import_module(TOOLS[name])
    console.run(tool.main, getattr(tool, "STOPPED", "stopped"))


main()
