"""Reports of heapmark and histograms of jcmd: their rows and totals."""

import enum
import re
from dataclasses import dataclass, field
from itertools import islice
from typing import BinaryIO, Callable, Dict, Iterable, Iterator, List, NamedTuple, Optional, Tuple

from heap_tools import class_names
from heap_tools.faults import UNREADABLE, Fault

#: The names of the last three rows of a report.
TOTALS = ["(reachable)", "(unreachable)", "(unresolved)"]
LONGEST_LINE = 1 << 20  # a name has at most 65,535 bytes, each shown by at most four
#: The fewest bytes that a class has in a dump, and how many rows are of none: those of arrays of primitive values, of
#: class objects, and the totals.
SMALLEST_CLASS, OTHER_ROWS = 43, 12
#: The most bytes of a dump that heapmark accepts.
LARGEST_DUMP = 1 << 30
#: A row of a report of heapmark.
ROW = re.compile(rb" *([0-9]{1,19}) +([0-9]{1,19})  ([!-~]+)")


class Amount(NamedTuple):
    """Objects and their bytes."""

    objects: int = 0
    bytes: int = 0

    def minus(self, other: "Amount") -> "Amount":
        """Returns this amount without `other`."""
        return Amount(self.objects - other.objects, self.bytes - other.bytes)

    def plus(self, other: "Amount") -> "Amount":
        """Returns this amount and `other`."""
        return Amount(self.objects + other.objects, self.bytes + other.bytes)


class Unit(enum.Enum):
    """What a share is of: objects, or their bytes. The value is its noun."""

    OBJECTS = "objects"
    BYTES = "bytes"

    def of(self, amount: Amount) -> int:
        """Returns the figure of an amount in this unit."""
        return amount.objects if self is Unit.OBJECTS else amount.bytes

    def percent(self, part: Amount, whole: Amount) -> float:
        """Returns the share that `part` has of `whole` in this unit, in percent."""
        return 100 * self.of(part) / max(1, self.of(whole))

    @property
    def other(self) -> "Unit":
        """The other unit."""
        return Unit.BYTES if self is Unit.OBJECTS else Unit.OBJECTS

    @property
    def noun(self) -> str:
        """The noun of one of them."""
        return self.value[:-1]


class Row(NamedTuple):
    """A row of a report: a class, its objects and their bytes."""

    name: str
    amount: Amount


@dataclass
class Report:
    """What a report or a histogram says. A histogram has only rows. `in_heap`: bytes are those of objects in the heap,
    not those of the dump."""

    rows: List[Row] = field(default_factory=list)
    reachable: Amount = Amount()
    unreachable: Amount = Amount()
    unresolved: int = 0
    in_heap: bool = False

    def __post_init__(self) -> None:
        self.families: Dict[str, Amount] = {}
        for name, amount in self.rows:
            of_family = class_names.family(name)
            known = self.families.get(of_family)
            self.families[of_family] = known.plus(amount) if known else amount

    def by_name(self) -> Dict[str, Amount]:
        """Returns the objects and bytes of all classes of each name, of which each has a row: several loaders may have
        a class of one name."""
        found: Dict[str, Amount] = {}
        for name, amount in self.rows:
            found[name] = found.get(name, Amount()).plus(amount)
        return found

    def amount(self, family: str) -> Amount:
        """Returns the objects and bytes of a class, and of all hidden classes of its name."""
        return self.families.get(family, Amount())

    def total(self, families: Optional[Iterable[str]]) -> Amount:
        """Returns the objects and bytes of all these families, or of all that is reachable if `families` is None."""
        if families is None:
            return self.reachable
        amounts = [self.amount(family) for family in families]
        return Amount(sum(each.objects for each in amounts), sum(each.bytes for each in amounts))

    @property
    def bytes_head(self) -> str:
        """The head of a column of bytes."""
        return "heap bytes" if self.in_heap else "bytes"

    def has_nameless(self) -> bool:
        """Tests whether it shows a class by its identifier."""
        return any(name.startswith("?0x") for name, _ in self.rows)


def lines_of(file: BinaryIO) -> Iterator[bytes]:
    """Yields the lines of `file` without their ends. A line longer than `LONGEST_LINE` comes in parts."""
    return (line.rstrip(b"\r\n") for line in iter(lambda: file.readline(LONGEST_LINE), b""))


class LineBound:
    """Tests whether what a process has printed so far may be the beginning of a text of at most `most` lines: its first
    line is as one of `first`, or not yet whole, and no line is too long. What is printed without end is bounded so."""

    def __init__(self, most: int, *first: "re.Pattern[bytes]") -> None:
        self._most, self._first = most, first
        self._lines = self._at = self._line = 0

    def __call__(self, text: bytes) -> bool:
        """Tests it of `text`, which begins with the one before."""
        self._lines += text.count(b"\n", self._at)
        self._line = max(self._line, 1 + text.rfind(b"\n", self._at))
        self._at = len(text)
        if self._lines > self._most or self._at - self._line >= LONGEST_LINE:
            return False
        return not self._line or any(each.fullmatch(text, 0, text.find(b"\n")) for each in self._first)


def report_bound(length: int) -> LineBound:
    """Returns the bound of a report of heapmark on a dump with `length` bytes: no more rows than that may have
    classes."""
    return LineBound(length // SMALLEST_CLASS + OTHER_ROWS, ROW)


def read_report(lines: Iterable[bytes], path: str) -> Optional[Report]:
    """Reads a report of heapmark. Returns None if `lines` are no whole report, raises `Fault` if they are two."""
    rows: List[Row] = []
    for line in lines:
        found = ROW.fullmatch(line)
        if not found:
            return None
        if [each.name for each in rows[-3:]] == TOTALS:
            raise Fault(UNREADABLE, f"{path}: two reports in one file")
        rows.append(Row(found[3].decode(), Amount(int(found[1]), int(found[2]))))
    if [each.name for each in rows[-3:]] != TOTALS:
        return None
    reachable, unreachable, unresolved = (each.amount for each in rows[-3:])
    return Report(rows[:-3], reachable, unreachable, unresolved.objects)


def read_histogram(lines: Iterator[bytes], path: str) -> Optional[Report]:
    """Reads a histogram of jcmd. Returns None if `lines` are no whole histogram, raises `Fault` if they are two."""
    row = re.compile(rb" *[0-9]+: +([0-9]{1,19}) +([0-9]{1,19})  (\S.*)")
    if not any(re.match(rb" *num +#instances +#bytes  class name", line) for line in islice(lines, 3)):
        return None
    next(lines, None)  # the rule below the heads
    rows: List[Row] = []
    is_whole = False
    for line in lines:
        found = row.fullmatch(line)
        if is_whole and line.strip():
            raise Fault(UNREADABLE, f"{path}: two histograms in one file, or other lines after the first")
        if found:
            rows.append(Row(class_names.of_histogram(found[3]), Amount(int(found[1]), int(found[2]))))
        elif re.fullmatch(rb"Total +[0-9]+ +[0-9]+", line):
            is_whole = True
        elif not is_whole:
            return None
    return Report(rows, in_heap=True) if is_whole else None


def read_text(file: BinaryIO, path: str) -> Optional[Tuple[str, Report]]:
    """Returns what the open file `path` is, report or histogram, and what it says, or None if it is neither."""
    readers: Dict[str, Callable[[Iterator[bytes], str], Optional[Report]]]
    readers = {"report": read_report, "histogram": read_histogram}
    for kind, read in readers.items():
        file.seek(0)
        found = read(lines_of(file), path)
        if found:
            return kind, found
    return None
