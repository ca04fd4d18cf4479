"""The table that `retained` prints: how many objects of each class are reachable only by which labels.

A table has up to a million lines, and its sets share their parts: so lines and sets are columns of numbers, and a label
is looked up by the sets that have it, from its own set up.
"""

import re
from array import array
from typing import Collection, Dict, FrozenSet, Iterable, List, Mapping, NamedTuple, Optional, Set, Tuple

from heap_tools.reports import Amount, LineBound

#: What the bytes of an object are divided by, and a line: the objects, their bytes, the remainder of the bytes of each,
#: their set, and their class.
DIVISOR = 16
TABLE_LINE = re.compile(rb" *([0-9]{1,19}) +([0-9]{1,19})  ( [0-9]|1[0-5])  (-|[0-9]{1,19})  ([!-~]+)")
#: A line that says which two sets another one is made of.
JOINT = re.compile(rb"set ([0-9]{1,19}) = ([0-9]{1,19}) \+ ([0-9]{1,19})")
#: Either of both, to its end.
ANY_LINE = re.compile(b"%b\n|%b\n" % (TABLE_LINE.pattern, JOINT.pattern))
#: What is shown in place of a set without labels.
EMPTY = -1


class RowPart(NamedTuple):
    """Those objects of a row whose bytes have a remainder by `DIVISOR`. Only arrays have parts by that, by which it is
    known how they are padded: of all others the remainder is 0."""

    name: str
    remainder: int = 0


#: How many objects there are of each part of a row, and their bytes in the dump.
RowParts = Dict[RowPart, Amount]


class HeldTable:
    """The lines of a table. Each has a set of labels, `EMPTY` if it has none."""

    def __init__(self) -> None:
        # The numbers of parts of rows, by their words in a line.
        self._numbers: Dict[Tuple[bytes, bytes], int] = {}
        self._rows: Dict[int, RowPart] = {}
        # Of each line its set, its part of a row, its objects and their bytes.
        self._lines = array("q")
        #: The parts of each set that has several labels, and for each set those that are made of it.
        self._parts: Dict[int, Tuple[int, int]] = {}
        self._upper: Dict[int, List[int]] = {}
        self._by_set: Dict[int, List[int]] = {}
        self._known: Dict[int, FrozenSet[int]] = {}

    def add(self, text: bytes) -> bool:
        """Adds the lines of a text. Returns whether it has no others, and ends with a line."""
        end, numbers, by_set, lines = 0, self._numbers, self._by_set, self._lines
        for line in ANY_LINE.finditer(text):
            if line.start() != end:
                break
            end = line.end()
            objects, size, remainder, of_set, name, whole, first, second = line.groups()
            if whole:
                self._parts[int(whole)] = parts = int(first), int(second)
                for part in parts:
                    self._upper.setdefault(part, []).append(int(whole))
                continue
            number = EMPTY if of_set == b"-" else int(of_set)
            row = numbers.get((name, remainder))
            if row is None:
                row = self._added(name, remainder)
            by_set.setdefault(number, []).append(len(lines))
            lines.extend((number, row, int(objects), int(size)))
        return end == len(text)

    def _added(self, name: bytes, remainder: bytes) -> int:
        """Returns the number of a part of a row that a line had not before: that of another one if it has no parts."""
        is_array = name.startswith(b"[") or name.endswith(b"[]")
        first = b" 0" if not is_array else remainder
        number = self._numbers.setdefault((name, first), len(self._rows))
        self._rows[number] = RowPart(name.decode(), int(first))
        self._numbers[name, remainder] = number
        return number

    def sets_with(self, label: int) -> FrozenSet[int]:
        """Returns the sets of lines that have a label. One to which the text of labels gave no place has none: the
        table may have its number for a set of several, since it knows only of labels below that."""
        if label not in self._known:
            found, waiting = set(), [label] * (label not in self._parts)
            found.update(waiting)
            while waiting:
                more = [each for each in self._upper.get(waiting.pop(), ()) if each not in found]
                found.update(more)
                waiting += more
            self._known[label] = frozenset(found & self._by_set.keys())
        return self._known[label]

    def labels_of(self, number: int) -> Set[int]:
        """Returns the labels of a set."""
        found, waiting = set(), [number] * (number != EMPTY)
        while waiting:
            each = waiting.pop()
            parts = self._parts.get(each)
            if parts:
                waiting += parts
            else:
                found.add(each)
        return found

    def sets_below(self, label: int) -> List[int]:
        """Returns the sets of lines whose labels are all lower than `label`."""
        high: Set[int] = set()
        for number, parts in self._parts.items():  # in the order of the text: parts come before what is made of them
            if any(part in high or part not in self._parts and part >= label for part in parts):
                high.add(number)
        return [each for each in self._by_set if each not in high and (each in self._parts or each < label)]

    def every_set(self) -> Collection[int]:
        """Returns the sets of all lines."""
        return self._by_set.keys()

    def amounts(self, sets: Iterable[int]) -> RowParts:
        """Returns how many objects these sets have, by their parts of rows, and their bytes."""
        found: Dict[int, Tuple[int, int]] = {}
        lines, by_set = self._lines, self._by_set
        for each in sets:
            for at in by_set.get(each, ()):
                objects, size = found.get(lines[at + 1], (0, 0))
                found[lines[at + 1]] = objects + lines[at + 2], size + lines[at + 3]
        return {self._rows[number]: Amount(*amount) for number, amount in found.items()}

    def total(self, number: int, weights: Mapping[RowPart, Tuple[float, float]]) -> float:
        """Returns the sum over the objects of a set: of each part of a row in `weights` so much for an object, and so
        much for each byte."""
        found, lines, rows = 0.0, self._lines, self._rows
        for at in self._by_set.get(number, ()):
            an_object, a_byte = weights.get(rows[lines[at + 1]], (0, 0))
            found += an_object * lines[at + 2] + a_byte * lines[at + 3]
        return found

    def held(self, label: int) -> RowParts:
        """Returns what a label holds."""
        return self.amounts(self.sets_with(label))

    def whole(self) -> RowParts:
        """Returns all that is reachable."""
        return self.amounts(self.every_set())

    def objects_in(self, sets: Iterable[int]) -> int:
        """Returns how many objects these sets have."""
        return sum(self._lines[at + 2] for each in sets for at in self._by_set.get(each, ()))


def by_row(parts: RowParts) -> Dict[str, Amount]:
    """Returns how many objects there are of each row, and their bytes."""
    found: Dict[str, Amount] = {}
    for (name, _), amount in parts.items():
        found[name] = found[name].plus(amount) if name in found else amount
    return found


def table_bound(length: int, labels: int) -> LineBound:
    """Returns the bound of a table of a dump with `length` bytes, of a text with `labels` labels: no more lines than
    these may have objects and labels."""
    return LineBound(length + labels, TABLE_LINE, JOINT)


def read_table(text: bytes) -> Optional[HeldTable]:
    """Reads a table, which may be empty. Returns None if `text` is none: if it has another line, or does not end with a
    line."""
    table = HeldTable()
    return table if table.add(text) else None
