"""What dumps of one program have in common: they come in the order of their times, most own classes are in both, and
they have the same main class."""

import filecmp
import os
from typing import FrozenSet, Iterable, NamedTuple, Optional, Sequence

from heap_tools.class_names import is_own
from heap_tools.heap_dump import HeapDump

#: Of how many own classes of the smaller of two heaps the other must have one, if both are of one program.
COMMON = 2


class Taken(NamedTuple):
    """A file and when it was made, in milliseconds since 1970, or None if that is not known."""

    path: str
    time: Optional[int]


def wrong_order(files: Sequence[Taken]) -> Optional[str]:
    """Returns in words which file was made earlier than the one before it, or None. Files without a time may stand
    anywhere."""
    timed = [(each.path, each.time) for each in files if each.time is not None]
    for (before, first), (after, second) in zip(timed, timed[1:]):
        if first > second:
            return f"{after}: wrong order? it was dumped earlier than {before}"
    return None


def other_program(first: Iterable[str], last: Iterable[str]) -> Optional[str]:
    """Returns in words how few own classes of `first` are in `last` too, if most own classes of either are not in the
    other, or None if the two seem to be of one program."""
    own_of_first, own_of_last = ({name for name in each if is_own(name)} for each in (first, last))
    common = len(own_of_first & own_of_last)
    if common * COMMON >= min(len(own_of_first), len(own_of_last)):
        return None
    return f"{common} of the {len(own_of_first)} own classes"


def same_file(paths: Sequence[str]) -> Optional[str]:
    """Returns in words which file has the same content as the one before it, or None."""
    for before, after in zip(paths, paths[1:]):
        if os.path.getsize(before) == os.path.getsize(after) and filecmp.cmp(before, after, shallow=False):
            return f"{after}: the same file as {before}"
    return None


def main_classes(dump: HeapDump) -> FrozenSet[str]:
    """Returns the classes of the methods `main` in a stack that begins with such a method: a launcher and what it
    launches. There are none if `main` has ended."""
    stacks = [dump.stack(thread) for thread in sorted({root.thread for root in dump.roots})]
    mains = [stack for stack in stacks if stack and stack[-1].method == "main"]
    return frozenset(frame.class_name for stack in mains for frame in stack if frame.method == "main")


def other_main(first: HeapDump, last: HeapDump) -> Optional[str]:
    """Returns in words which main class `last` has, if it is not that of `first`, or None."""
    mains = [main_classes(each) for each in (first, last)]
    if not all(mains) or mains[0] <= mains[1] or mains[1] <= mains[0]:
        return None
    was, now = (", ".join(sorted(each)) for each in (mains[0] - mains[1], mains[1] - mains[0]))
    return f"the main class {now}, not the {was}"
