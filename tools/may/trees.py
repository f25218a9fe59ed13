"""What lies under a path: each file and folder, with the folder that it lies in. Links below it are not followed; the
path itself may be one."""
import os
import stat
from typing import Iterator, NamedTuple, Optional

from may.lists import Unread, quoted
from may.ways import SEARCH, Place, Way, place_of, way


class Row(NamedTuple):
    """A file, folder or link of a tree: its path as told, its place, the row of its folder, where a link leads."""

    path: str
    place: Place
    folder: Optional[int]
    target: Optional[str] = None


def spelled(top: str, found: Way) -> str:
    """How the top of a tree is told: without links, unless the way to it goes through some."""
    goes_on = any(place.is_link for place in found.places) or ".." in top.split("/")
    return (os.path.join(os.getcwd(), top).rstrip("/") or "/") if goes_on else found.places[-1].path


class Tree:
    """The rows of a tree, each folder's after its own, what could not be read, a sentence each, and the way to it."""

    def __init__(self, top: str) -> None:
        self.rows: list[Row] = []
        self.unread: list[str] = []
        self.way = way(top, SEARCH)
        if self.way.end:
            raise self.way.end
        self.rows.append(Row(spelled(top, self.way), self.way.places[-1], None))

    @property
    def to_top(self) -> Way:
        """The way to the top, without it."""
        return self.way._replace(places=self.way.places[:-1])

    @property
    def above(self) -> Way:
        """The same as a part of the ways to what lies below: no link on it is the last name of these."""
        return self.way._replace(places=[place._replace(is_last=False) for place in self.way.places[:-1]])

    def parts(self, size: int = 2000) -> Iterator[range]:
        """Reads the tree; answers its rows in parts of about this many, as they are found."""
        begun = 0
        for at, row in enumerate(self.rows):
            if row.target is None and row.place.is_folder:
                self.read(at, row)
            if len(self.rows) - begun >= size:
                yield range(begun, len(self.rows))
                begun = len(self.rows)
        yield range(begun, len(self.rows))

    def read(self, at: int, folder: Row) -> None:
        try:
            names = sorted(os.listdir(folder.place.path))
        except OSError as error:
            self.unread.append(f"{quoted(folder.path)}: {error.strerror}")
            return
        for name in names:
            self.add(at, folder, name)

    def add(self, at: int, folder: Row, name: str) -> None:
        path, told = os.path.join(folder.place.path, name), os.path.join(folder.path, name)
        try:
            found = os.lstat(path)
            if stat.S_ISLNK(found.st_mode):
                place = Place(path, 0, found.st_uid, found.st_gid, found.st_mode, (), folder.place.mount)
                self.rows.append(Row(told, place, at, os.readlink(path)))
            else:
                self.rows.append(Row(told, place_of(path, 0, found), at))
        except Unread as error:
            self.unread.append(str(error))
        except OSError as error:
            self.unread.append(f"{quoted(told)}: {error.strerror}")
