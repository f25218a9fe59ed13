"""The door of ./suites shell, a session in the words that people know; help/shell.txt tells all of it."""
import argparse
import sys

from common import console
from mount import words
from shell import speaking


def main() -> int:
    if {"--help", "-h"} & set(sys.argv[1:]):
        return console.print_help("shell")
    read = argparse.ArgumentParser(usage="./suites shell [OPTIONS] [< STORY]", add_help=False, allow_abbrev=False)
    words.options(read)
    return speaking.speak(read.parse_args())
