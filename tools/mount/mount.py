"""The door of ./suites mount."""
import sys

from common import console
from mount import control, serving, words

STOPPED = "stopped; the mount has ended"


def main() -> int:
    if {"--help", "-h"} & set(sys.argv[1:]):
        return console.print_help("mount")
    given = words.read(sys.argv[1:])
    return control.ask(given.folder, given.lines) if given.control else serving.main(given)
