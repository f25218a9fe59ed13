"""What the tools of several rooms use, and where the repository is."""
import os
import pathlib
import sys

TOOLS = os.path.dirname(os.path.dirname(os.path.abspath(__file__)))
TOP = os.path.dirname(TOOLS)


def tool(name: str, *words: str) -> list[str]:
    """The command that starts a tool."""
    return [sys.executable, TOOLS, name, *words]


def of_kit(*words: str) -> list[str]:
    """The command that starts the kit's `rt` with these words."""
    return tool("rt", *words)


def text_of(*path: str) -> str:
    """The text of a file, by its path from the top of the repository."""
    return pathlib.Path(TOP, *path).read_text(encoding="utf-8")
