"""The files that show a program at several moments: dumps, saved reports and histograms."""

import os
from typing import List, NamedTuple, Optional, Sequence

from heap_tools.dump_file import FileState, state_of, unchanged
from heap_tools.faults import UNREADABLE, WRONG_USE, Fault
from heap_tools.gzip_dump import beginning, forget
from heap_tools.heapmark import Heapmark
from heap_tools.hprof_format import HEADER_SIZE, MAGIC, TIME_AT
from heap_tools.reports import Report, read_text


class Snapshot(NamedTuple):
    """A file of the command line. `kind` is dump, report or histogram; `time` the time in a dump's header, in
    milliseconds since 1970, or None; `state` that of the file before heapmark read the dump, None if it is no plain
    file."""

    path: str
    kind: str
    report: Report
    time: Optional[int] = None
    state: Optional[FileState] = None


class SnapshotReader:
    """Reads the files of a command line. `skip` is a list of fields for dumps, or None."""

    def __init__(self, skip: Optional[str]) -> None:
        self.heapmark = Heapmark()
        self.options = [] if skip is None else ["--skip=" + skip]
        if skip is not None:
            self.heapmark.check_fields(skip)

    def read(self, path: str) -> Snapshot:
        """Reads a file of any of the three kinds."""
        if not os.path.isfile(path):
            return self._dump(path, ", and only dumps may come from what is no plain file")
        state = state_of(path)
        try:
            header = beginning(path, HEADER_SIZE)
            if not header.startswith(MAGIC):
                with open(path, "rb") as file:
                    found = read_text(file, path)
                why = ", no whole report, and no whole histogram"
                return Snapshot(path, *found) if found else self._dump(path, why)
        except PermissionError:
            header = b""  # heapmark says so
        time = int.from_bytes(header[TIME_AT:], "big") if len(header) == HEADER_SIZE else None
        return self._plain_dump(path, time, state)

    def _plain_dump(self, path: str, time: Optional[int], state: Optional[FileState]) -> Snapshot:
        """Runs heapmark on a dump in a plain file, which had the state `state` before it was opened. Raises `Fault` if
        it has changed since then. What was unpacked is not kept: there may be many files."""
        with unchanged(path, state):
            found = self._dump(path)._replace(time=time, state=state)
        forget(path)
        return found

    def _dump(self, path: str, why: str = "") -> Snapshot:
        """Runs heapmark on a dump."""
        return Snapshot(path, "dump", self.heapmark.first_report(path, self.options, why))


def read_snapshots(paths: Sequence[str], skip: Optional[str]) -> List[Snapshot]:
    """Reads the files. Raises `Fault` if `skip` is for none of them."""
    reader = SnapshotReader(skip)
    snapshots = [reader.read(path) for path in paths]
    if skip is not None and all(each.kind != "dump" for each in snapshots):
        raise Fault(WRONG_USE, "--skip: none of the files is a dump")
    return snapshots


def hours_between(first: Snapshot, last: Snapshot) -> float:
    """Returns the hours between two dumps. Raises `Fault` if a time is not known, or if none lies between them."""
    if first.time is None or last.time is None:
        path = first.path if first.time is None else last.path
        raise Fault(UNREADABLE, f"{path}: --per-hour: no dump in a plain file, so its time is not known")
    if last.time <= first.time:
        raise Fault(UNREADABLE, f"{last.path}: --per-hour: not later than {first.path}")
    return (last.time - first.time) / 3600000
