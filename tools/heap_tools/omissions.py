"""What heap dumps do not have, for each version of the JDK, in the words of all tools and of the page."""

from typing import List, Optional

from heap_tools.humanize import counted, more_are, size
from heap_tools.reports import Amount

#: What dumps omit of virtual threads that wait, by the version of the JDK.
VIRTUAL_THREADS = (
    "of virtual threads that wait, JDK 21 omits the stacks, and JDK 25 the values that compiled code keeps without an "
    "object"
)
#: What holds objects that are unreachable in a live dump.
HIDDEN_HOLDERS = (
    "only class objects, the virtual machine or waiting virtual threads hold them, which dumps omit "
    f"({VIRTUAL_THREADS})"
)
#: Why objects are unreachable, by the kind of dump.
WHY_UNREACHABLE = f"garbage in dumps with -all or of an OutOfMemoryError; in live dumps {HIDDEN_HOLDERS}"
#: What no dump shows, of whatever program.
NEVER_SHOWN = [
    "Memory outside of the heap: direct buffers, class metadata, compiled code, and the memory of stacks.",
]
#: What bytes are if they are those of the dump.
SIZES = (
    "Headers and padding of objects. Bytes are those of fields and elements as the dump writes them, and a reference "
    "of a 64-bit machine counts 8 bytes, so sizes differ from those that the virtual machine reports. Numbers of "
    "objects can be compared."
)
#: What is unreachable is much if it is at least this part of all that a dump has more, in percent, and of its heap.
MUCH_OF_MORE, MUCH_OF_HEAP = 20, 1


def more_unreachable(more: Amount) -> str:
    """Returns how much more is unreachable in a later dump, and why. `more` is above 0 in one figure at least."""
    return f"{more_are(*more)} unreachable: {WHY_UNREACHABLE}"


def counted_by_histogram(unreachable: int, dump: str) -> str:
    """Returns that a histogram also counts the `unreachable` objects of the dump with which it is compared."""
    what = counted(unreachable, "object")
    return f"a histogram also counts what is unreachable in {dump}, unless it is garbage: {what}"


def on_page(more: Amount) -> List[str]:
    """Returns in sentences what the dumps of a page do not show. `more` is what is unreachable in the last one only."""
    return [f"In the last dump, {more_unreachable(more)}."] if max(more) > 0 else []


def unreachable_on_page(objects: int, dump: str = "the last dump") -> str:
    """Returns a sentence on the `objects` that are unreachable in the last dump of a page, which is called `dump`."""
    return f"What holds unreachable objects, of which {dump} has {objects:,}: {WHY_UNREACHABLE}."


def large_unreachable(more: Amount, grown: Amount, heap: Amount) -> Optional[str]:
    """Returns a warning if what is unreachable in the last dump only is much, else None. `more` is how much that is,
    `grown` how much more is reachable in it, and `heap` all that is."""
    share = 100 * more.bytes / max(1, more.bytes + max(0, grown.bytes))
    if more.bytes <= 0 or share < MUCH_OF_MORE or 100 * more.bytes < MUCH_OF_HEAP * heap.bytes:
        return None
    return (
        f"{size(more.bytes)} more are unreachable in the last dump than in the first, and no figure of what is held or "
        f"reachable has them. That is {share:.0f}% of all that the last dump has more: {WHY_UNREACHABLE}. jmap "
        "-histo:live PID counts those that are live: compare two of its outputs by grown."
    )
