"""What under a tree may a user read, write or execute, and what not?"""
from typing import Iterable, Iterator, NamedTuple, Optional

from may import linux
from may.lists import Unread, entry_text, name_of, quoted, who
from may.linux import EXECUTE
from may.people import Caller
from may.program import Question, answers, decider, granting, is_granted, question
from may.scripts import interpreters, is_refused
from may.telling import DENIED, GRANTED, UNREAD, answers_of, judged
from may.trees import Row, Tree
from may.ways import SEARCH, Place, Way


class Told(NamedTuple):
    """A path, whether the user may, and by what; no answer for a link or for what is not judged."""

    path: str
    may: Optional[bool]
    by: str
    is_link: bool = False


class Under:
    """A tree, a user and what it wants; each question is asked once."""

    def __init__(self, caller: Caller, wanted: int, tree: Tree) -> None:
        self.caller, self.wanted, self.tree = caller, wanted, tree
        self.answer: dict[Question, str] = {}
        self.grants: dict[Question, str] = {}
        self.programs: dict[str, Told] = {}
        # of each row why nothing below it is reached, if nothing is
        self.stops: list[Optional[Told]] = []

    def ask(self, rows: Iterable[Row]) -> None:
        """Asks all that is to be known of some rows."""
        places = [row.place for row in rows if row.target is None]
        asked = [question(place, self.caller, self.wanted) for place in places]
        asked += [question(place, self.caller, SEARCH) for place in places if place.is_folder]
        each = [one for one in dict.fromkeys(asked) if one not in self.answer]
        self.answer.update(zip(each, answers(each)))
        granted = [one for one in each if one.wanted == self.wanted and is_granted(self.answer[one])]
        self.grants.update(zip(granted, map(who, granting(granted))))

    def said(self, place: Place, wanted: int) -> tuple[linux.Said, Question]:
        asked = question(place, self.caller, wanted)
        return linux.of_place(place, self.caller, self.answer[asked], wanted), asked

    def denied_by(self, place: Place, said: linux.Said, asked: Question) -> str:
        return said.why or f"by {entry_text(decider(place.entries, self.answer[asked]), name_of)}"

    def told(self, row: Row, stopped: Optional[Told]) -> Told:
        """What is told of a row, where the folders on the way let pass, or why they do not."""
        place = row.place
        if row.target is not None:
            return Told(row.path, None, f"a link to {quoted(row.target)}, not followed", True)
        if stopped:
            return stopped._replace(path=row.path)
        said, asked = self.said(place, self.wanted)
        if said.grants is None:
            return Told(row.path, None, said.why)
        if not said.grants:
            return Told(row.path, False, f"denied {self.denied_by(place, said, asked)}")
        at_end = "; but only at its end (append only)" if linux.appended_only(place, self.wanted) else ""
        by = said.why or f"by {self.grants[asked]}"
        told = Told(row.path, True, by + at_end)
        return self.of_script(row, told) if self.wanted & EXECUTE and place.is_file else told

    def of_script(self, row: Row, told: Told) -> Told:
        """What is told of a file that may be executed: the interpreters of a script are looked at too."""
        for found in interpreters(Way(row.path, [row.place])):
            if not found.places and found.end and found.path == row.path:
                return Told(row.path, None, str(found.end))
            if found.path not in self.programs or found.end:
                self.programs[found.path] = self.of_program(found)
            script = self.programs[found.path]
            if not script.may:
                return Told(row.path, script.may, f"a script for {quoted(found.path)}: {script.by}")
        return told

    def of_program(self, found: Way) -> Told:
        of_it = judged(self.caller, EXECUTE, False, found, answers_of([found], self.caller))
        last = of_it.last.partition(" may not x: ")[2] or of_it.last
        is_missing = of_it.status == UNREAD and found.end and last == str(found.end) and is_refused(found.end)
        may = True if of_it.status == GRANTED else False if of_it.status == DENIED or is_missing else None
        return Told(found.path, may, last)

    def stop(self, row: Row, stopped: Optional[Told]) -> Optional[Told]:
        """Why nothing below a row is reached, if nothing is."""
        if row.target is not None or not row.place.is_folder or stopped:
            return stopped
        said, asked = self.said(row.place, SEARCH)
        if said.grants:
            return None
        if said.grants is None:
            return Told("", None, said.why)
        return Told("", False, f"stopped at {quoted(row.path)}: {self.denied_by(row.place, said, asked)}")

    def before(self, way: Way) -> Optional[Told]:
        """Why the tree is not reached by the way to it, if it is not."""
        told = judged(self.caller, SEARCH, False, way, answers_of([way], self.caller)) if way.places else None
        if told is None or told.status == GRANTED:
            return None
        why = told.last.partition(" may not x: ")[2] or told.last
        return Told("", False if told.status == DENIED else None, f"stopped: {why}")

    def rows(self, some: range) -> Iterator[Told]:
        """What is told of some rows, which come one part after the other."""
        rows = [self.tree.rows[at] for at in some]
        self.ask(rows)
        for row in rows:
            is_top = row.folder is None
            stopped = self.before(self.tree.to_top) if is_top else self.stops[row.folder]
            try:
                yield self.told(row, stopped)
            except Unread as error:
                yield Told(row.path, None, str(error))
            self.stops.append(self.stop(row, self.before(self.tree.above) if is_top else stopped))
