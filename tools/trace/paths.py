"""The paths of files and folders, so far as the events of a run tell the names of folders."""
from collections.abc import Iterable

from trace.events import Event


class Paths:
    """The paths of files and folders, by their numbers, so far as a folder with their names was told."""

    def __init__(self) -> None:
        self.known, self.placed = {0: "/"}, {0}
        self.waiting: dict[int, list[tuple[str, int]]] = {}

    def learn(self, event: Event) -> None:
        """Takes what an event tells: whatever has names was prepared with them first."""
        for part in event.get("request", {}).get("parts", ()):
            for name, suite in part.get("names", {}).items():
                self.place(part["suite"], name, suite)

    def place(self, folder: int, name: str, suite: int) -> None:
        """A suite is in a folder under a name. It is there for good: what is made later has another number."""
        if suite in self.placed:
            return
        self.placed.add(suite)
        found = [(folder, name, suite)]
        while found:
            folder, name, suite = found.pop()
            if folder in self.known:
                self.known[suite] = f"{self.known[folder].rstrip('/')}/{name}"
                found += [(suite, *below) for below in self.waiting.pop(suite, ())]
            else:
                self.waiting.setdefault(folder, []).append((name, suite))


def paths(events: Iterable[Event]) -> dict[int, str]:
    """The paths of files and folders, by their numbers, so far as a folder with their names was told."""
    found = Paths()
    for event in events:
        found.learn(event)
    return found.known
