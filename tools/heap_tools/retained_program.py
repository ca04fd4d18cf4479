"""retained: how it runs on dumps, several at a time, and what its tables are of."""

import contextlib
import os
from typing import Dict, List, NamedTuple, Sequence

from heap_tools.child_process import Call, Child, Children, Feed, Ran
from heap_tools.console import say
from heap_tools.gzip_dump import readable_name
from heap_tools.held_table import HeldTable, read_table, table_bound
from heap_tools.label_text import Labels
from heap_tools.parallel import processors
from heap_tools.proved_program import STANDARD_INPUT, ProvedProgram

#: The most runs at a time, however many processors there are: each has a dump in memory, and some bytes for each of its
#: objects. Two dumps are mostly asked at once.
MOST_AT_A_TIME = 2


class LabelledDump(NamedTuple):
    """A dump in the file `path`, which has `length` bytes, and labels. `has_objects`: some are reachable."""

    path: str
    length: int
    labels: Labels
    has_objects: bool = True


class RetainedProgram(ProvedProgram):
    """The program, as it was found, and how often it ran."""

    def __init__(self) -> None:
        super().__init__("retained")

    def tables(self, dumps: Sequence[LabelledDump]) -> List[HeldTable]:
        """Returns the table of each dump with its labels. Raises `Fault` if a run fails: then it ends all others,
        as it does if this is interrupted."""
        running: Dict[Child, int] = {}
        found: Dict[int, HeldTable] = {}
        with Children() as children:
            for number, dump in enumerate(dumps):
                if len(running) >= min(MOST_AT_A_TIME, processors()):
                    self._end_one(children, running, dumps, found)
                running[self._begin(dump, children)] = number
            while running:
                self._end_one(children, running, dumps, found)
        return [found[number] for number in range(len(dumps))]

    def _begin(self, dump: LabelledDump, children: Children) -> Child:
        """Starts a run, which gets the text of labels by a pipe: no file is written."""

        def write(pipe: int) -> None:
            with open(pipe, "wb", closefd=False) as file:
                file.writelines(dump.labels.text())

        feed: Feed = write
        bound = table_bound(dump.length, len(dump.labels.places))
        with contextlib.ExitStack() as stack:
            name = readable_name(dump.path)
            if not is_same_in_child(name):
                file = stack.enter_context(open(name, "rb")).fileno()
                os.set_inheritable(file, True)
                name = f"/dev/fd/{file}"
            child = self.started(Call(["--", name, STANDARD_INPUT], bound, feed=feed), children)
        return child

    def _end_one(
        self, children: Children, running: Dict[Child, int], dumps: Sequence[LabelledDump], found: Dict[int, HeldTable]
    ) -> None:
        """Waits until a run has ended, and keeps its table."""
        child, ran = children.next_ended()
        number = running.pop(child)
        found[number] = self._judged(dumps[number], ran)

    def _judged(self, dump: LabelledDump, ran: Ran) -> HeldTable:
        """Returns the table that a run printed, if it ended well. Then its messages are passed on."""
        self.runs += 1
        table = read_table(ran.out) if ran.status == 0 and not ran.was_stopped else None
        if table is None or dump.has_objects and not table.every_set():
            raise self.failed(dump.path, ran, "table")
        for line in ran.said:
            say(line)
        return table


def is_same_in_child(path: str) -> bool:
    """Tests whether retained takes a name, and finds the same file by it: its standard input is another one."""
    try:
        path.encode()
    except UnicodeEncodeError:
        return False
    return not os.path.abspath(path).startswith(("/dev/", "/proc/"))
