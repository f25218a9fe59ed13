"""Lines as they are found; and on a terminal, from the third second on, how far the work is."""
import sys

from common import console


class Sayer(console.Progress):
    def line(self, text: str) -> None:
        self.clear()
        print(text)

    def error(self, text: str) -> None:
        """A sentence on standard error, after all that stands before it."""
        self.clear()
        sys.stdout.flush()
        print(f"suites: {text}", file=sys.stderr)

    def raw(self, data: bytes) -> None:
        self.clear()
        sys.stdout.buffer.write(data)

    def at(self, count: int) -> None:
        """Lets go what was told, and says how many paths there were so far."""
        sys.stdout.flush()
        self.say(f"may is at work: {count:,} paths")


SAYER = Sayer()
