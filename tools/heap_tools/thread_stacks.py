"""Where threads are: those that ran out of memory, and those whose local variables hold much."""

from typing import Callable, Dict, List, NamedTuple

from heap_tools.class_names import family, is_own, printable
from heap_tools.heap_dump import Frame, HeapDump
from heap_tools.heap_objects import HeapObjects
from heap_tools.hprof_format import THREAD_OBJECT
from heap_tools.thread_counts import NAMELESS

#: The method on top of the stack of a thread that ran out of memory, if the virtual machine made the dump for that. It
#: writes this frame itself, for heap, class metadata and too long arrays alike, also above native methods. There is
#: none if Java code made the error, as for direct buffers: then there is no such dump.
RAN_OUT = Frame("java/lang/OutOfMemoryError", "<init>")
#: How many methods of a stack are said: the first own one, and what called it.
METHODS = 3


class ThreadPlace(NamedTuple):
    """Where a thread is: its name as it is shown, its methods, the innermost first, how many of them are before the
    first own one, 0 if none is own, and its serial number in the dump."""

    name: str
    methods: List[str]
    before_own: int
    thread: int

    @property
    def shown(self) -> List[str]:
        """The first own method, and those that called it."""
        return self.methods[self.before_own : self.before_own + METHODS]

    def __str__(self) -> str:
        named = f'thread "{self.name}"' if self.name else f"thread {NAMELESS}"
        return f"{named} in {', '.join(self.shown)}" if self.methods else named


def threads_that_ran_out(dump: HeapDump) -> List[ThreadPlace]:
    """Returns the threads that ran out of memory: one in a dump that the virtual machine made for that."""
    return _places(dump, lambda stack: 1 if stack[0] == RAN_OUT else -1)


def threads_in(dump: HeapDump, method: str) -> List[ThreadPlace]:
    """Returns the threads with a call of `method`, a name such as `shop/Import.readAll`, from that call on."""

    def begin(stack: List[Frame]) -> int:
        return next((number for number, frame in enumerate(stack) if method_words(frame) == method), -1)

    return _places(dump, begin)


def method_words(frame: Frame) -> str:
    """Returns a method with its class, as lines name it: hidden classes without counter and address."""
    return f"{family(frame.class_name)}.{frame.method}"


def _places(dump: HeapDump, begin: Callable[[List[Frame]], int]) -> List[ThreadPlace]:
    """Returns the threads in whose stacks `begin` finds a frame, from it on."""
    threads = {root.thread for root in dump.roots if root.kind == THREAD_OBJECT}
    stacks: Dict[int, List[Frame]] = {thread: dump.stack(thread) for thread in sorted(threads)}
    begins = {thread: begin(stack) if stack else -1 for thread, stack in stacks.items()}
    found = {thread: stacks[thread][number:] for thread, number in begins.items() if number >= 0}
    names = HeapObjects(dump).thread_names() if found else {}
    return [_place(thread, printable(names.get(thread, "")), stack) for thread, stack in found.items()]


def _place(thread: int, name: str, stack: List[Frame]) -> ThreadPlace:
    own = next((number for number, frame in enumerate(stack) if is_own(frame.class_name)), 0)
    return ThreadPlace(name, [method_words(frame) for frame in stack], own, thread)
