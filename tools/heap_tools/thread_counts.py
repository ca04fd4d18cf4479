"""How many threads there are of a name, with the numbers in it as one, and the stack that most of them have."""

import collections
import re
from collections import defaultdict
from typing import Counter, Dict, List, NamedTuple, Optional, Tuple

from heap_tools.class_names import is_own, printable
from heap_tools.heap_dump import Frame, HeapDump
from heap_tools.heap_objects import HeapObjects
from heap_tools.hprof_format import THREAD_OBJECT

#: How many frames of a stack are shown, the innermost first.
FRAMES = 5
#: How many characters of a thread's name are shown, and of a frame: a program may make names of any length, and a line
#: of a message has to be read.
LONGEST_NAME, LONGEST_FRAME = 100, 200
#: From how many threads of one pattern on it is said of one dump that they are many. Pools of servers have some hundred
#: at most: those of Tomcat and Jetty 200, if nobody says otherwise.
MANY_THREADS = 500
#: What threads with no name, or an empty one, are called.
NAMELESS = "without a name"


def shown_name(name: str) -> str:
    """Returns the name of a thread as it is shown: in one line, and of a long one the begin and the length."""
    if len(name) > LONGEST_NAME:
        name = f"{name[:LONGEST_NAME]}.. ({len(name):,} characters)"
    return printable(name)


def pattern_of(name: str) -> str:
    """Returns the name of a thread as it is shown, with `*` for each number in it: `report-17` is `report-*`."""
    return shown_name(re.sub("[0-9]+", "*", name))


class ThreadCount(NamedTuple):
    """How many threads have names of one pattern, in the first dump and in the last, and the stack that most of them
    have in the last, the innermost frame first."""

    pattern: str
    before: int
    after: int
    stack: List[Frame]

    @property
    def own(self) -> Optional[int]:
        """The number of the innermost frame that is not in the JDK, or None if all are: it tells what they do."""
        return next((number for number, frame in enumerate(self.stack) if is_own(frame.class_name)), None)

    @property
    def frames(self) -> List[str]:
        """The methods of the stack, at most `FRAMES`: from the innermost that is not in the JDK on, if there is one."""
        begin = self.own or 0
        return [method_of(frame) for frame in self.stack[begin : begin + FRAMES]]

    @property
    def named(self) -> str:
        """The pattern in quotes, or words for threads without a name."""
        return f'"{self.pattern}"' if self.pattern else NAMELESS

    @property
    def where(self) -> str:
        """The stack in words that follow others, empty if there is none."""
        are = "it is" if self.after == 1 else "most are"
        innermost = f" (innermost: {method_of(self.stack[0])})" if self.own else ""
        return f"; {are} in {', '.join(self.frames)}{innermost}" if self.stack else ""

    def __str__(self) -> str:
        return f"threads {self.named}: {self.before}, then {self.after}{self.where}"


def method_of(frame: Frame) -> str:
    """Returns the method of a frame as it is shown, cut if its name is long."""
    method = f"{frame.class_name}.{frame.method}"
    return method if len(method) <= LONGEST_FRAME else f"{method[:LONGEST_FRAME]}.."


def number_of_threads(dump: HeapDump) -> int:
    """Returns how many threads the dump has."""
    return len({root.thread for root in dump.roots if root.kind == THREAD_OBJECT})


def grown_thread_counts(first: HeapDump, last: HeapDump) -> List[ThreadCount]:
    """Returns the patterns of which there are more threads in the last dump, those that grew most first. Reads the
    names only if there are more threads."""
    if number_of_threads(last) <= number_of_threads(first):
        return []
    before, after = _by_pattern(first), _by_pattern(last)
    found = []
    for pattern, threads in after.items():
        was = len(before.get(pattern, ()))
        if len(threads) > was:
            found.append(ThreadCount(pattern, was, len(threads), _usual_stack(last, threads)))
    return sorted(found, key=lambda each: (each.before - each.after, each.pattern))


def many_threads_words(dump: HeapDump) -> List[str]:
    """Returns in words of which patterns a dump has `MANY_THREADS` threads or more, most of them first. Reads the names
    only if there are `MANY_THREADS` in all."""
    every = _by_pattern(dump) if number_of_threads(dump) >= MANY_THREADS else {}
    many = [(pattern, threads) for pattern, threads in every.items() if len(threads) >= MANY_THREADS]
    many.sort(key=lambda each: (-len(each[1]), each[0]))
    found = [ThreadCount(pattern, 0, len(threads), _usual_stack(dump, threads)) for pattern, threads in many]
    return [f"{it.after:,} threads {it.named}, each with a stack outside the heap{it.where}" for it in found]


def _by_pattern(dump: HeapDump) -> Dict[str, List[int]]:
    """Returns the serial numbers of the threads by the pattern of their names."""
    found: Dict[str, List[int]] = defaultdict(list)
    for thread, name in HeapObjects(dump).thread_names().items():
        found[pattern_of(name)].append(thread)
    return found


def _usual_stack(dump: HeapDump, threads: List[int]) -> List[Frame]:
    """Returns the stack that most of these threads have."""
    stacks: Counter[Tuple[Frame, ...]] = collections.Counter(tuple(dump.stack(thread)) for thread in threads)
    return list(stacks.most_common(1)[0][0])
