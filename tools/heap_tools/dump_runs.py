"""A dump in a plain file: its report, its records, and what its bytes are."""

import contextlib
import struct
from typing import List, Optional, Sequence

from heap_tools.dump_file import FileState, changed, state_of, unchanged, whole_content
from heap_tools.heap_dump import HeapDump
from heap_tools.heapmark import Heapmark
from heap_tools.held_table import RowParts
from heap_tools.object_sizes import RowSizes
from heap_tools.plain_dumps import require_plain_dump
from heap_tools.reports import Report


def read_dump(path: str, state: Optional[FileState], report: Report) -> HeapDump:
    """Returns the records of a dump of which heapmark has made `report`; its file had the state `state` before that.
    Raises `Fault` if they are not as heapmark read them."""
    content = whole_content(path, state)
    try:
        return HeapDump(content, report.has_nameless(), path)
    except (IndexError, KeyError, ValueError, struct.error):  # a change that the state of the file does not show
        raise changed(path) from None


class DumpRuns:
    """A dump in the plain file `path`, and its `report`, in bytes of the heap if there are `sizes`. `written` is the
    report in bytes of the dump. `state` is that of the file when it was read."""

    def __init__(
        self,
        heapmark: Heapmark,
        path: str,
        written: Report,
        dump: HeapDump,
        sizes: Optional[RowSizes] = None,
        state: Optional[FileState] = None,
    ) -> None:
        self.heapmark, self.path, self.written, self.dump = heapmark, path, written, dump
        self.sizes, self.state = sizes, state
        self.report = sizes.report(written) if sizes else written
        self._is_learnt = False

    @classmethod
    def of(cls, heapmark: Heapmark, path: str, tool: str) -> "DumpRuns":
        """Reads the dump `path` for `tool`. Raises `Fault` if it is no plain dump, if heapmark refuses it, or if its
        records are not as heapmark read them."""
        (found,) = cls.of_several(heapmark, [path], tool)
        return found

    @classmethod
    def of_several(cls, heapmark: Heapmark, paths: Sequence[str], tool: str) -> "List[DumpRuns]":
        """Reads the dumps at `paths`, of which heapmark makes reports at the same time. Raises `Fault` as `of` does."""
        for path in paths:
            require_plain_dump(path, tool)
        states = [state_of(path) for path in paths]
        with contextlib.ExitStack() as stack:
            for path, state in zip(paths, states):
                stack.enter_context(unchanged(path, state))
            reports = heapmark.first_reports(paths)
        return [
            cls(heapmark, path, written, read_dump(path, state, written), state=state)
            for path, state, written in zip(paths, states, reports)
        ]

    def in_heap(self, sizes: RowSizes) -> "DumpRuns":
        """Returns the same dump, with reports in bytes of the heap."""
        return DumpRuns(self.heapmark, self.path, self.written, self.dump, sizes, self.state)

    def learn(self, reachable: RowParts) -> None:
        """Notes what is reachable, by the first table of the dump, or if it is not asked, by that of a later one: the
        arrays of the report have the mean padding of these from then on. By its own table a report is exact, but for
        what that lacks, such as what weak references hold."""
        if self.sizes and not self._is_learnt:
            self._is_learnt = True
            self.report = self.sizes.padded_as(reachable).report(self.written)

    def changed_words(self) -> List[str]:
        """Returns in words that the file has changed since it was read, nothing if it has not."""
        if state_of(self.path) == self.state:
            return []
        return [f"{self.path} has changed since it was read: all that is said is of what it was"]
