"""What is said beside the lines of one dump: how full the heap is, which object holds most, what is in it, which thread
ran out of memory and what it asked for, and what else there is much of: threads and loaders."""

from dataclasses import dataclass
from typing import List, Optional, Sequence

from heap_tools.candidates import LOCAL
from heap_tools.class_counts import many_loaders_words
from heap_tools.direct_buffers import DirectMemory, direct_memory
from heap_tools.heap_capacity import heap_capacity
from heap_tools.humanize import counted, size
from heap_tools.leak_notes import captured_words, lines_words
from heap_tools.memory_asked import asked_words
from heap_tools.omissions import WHY_UNREACHABLE
from heap_tools.one_dump import HeapAnswer
from heap_tools.reports import Row
from heap_tools.thread_counts import many_threads_words
from heap_tools.thread_stacks import ThreadPlace, threads_in, threads_that_ran_out

#: From which part of what counts on, in percent, it is said what else there is: what is unreachable, what weak
#: references hold, and what is outside of the heap.
MUCH = 10
#: How many classes of what a line retains are said, and of how many threads where their local variables are.
SHOWN_CLASSES, SHOWN_THREADS = 3, 2
#: What one dump cannot show. A large cache that is steady looks like a leak.
SECOND = "one dump shows what is held, not what is more than usual: a second one, taken later, shows that"


@dataclass(frozen=True)
class HeapNotes:
    """How many bytes the heap may have, if the dump says it, the threads that ran out of memory, sentences on those
    whose local variables are lines or above them, the memory of direct buffers, a sentence on weak references, empty if
    they hold little, and other sentences."""

    capacity: Optional[int]
    ran_out: List[ThreadPlace]
    locals: List[str]
    direct: DirectMemory
    weak: str
    others: List[str]


def notes_of_one(answer: HeapAnswer) -> HeapNotes:
    """Returns what is to be said beside the lines of an answer."""
    dump = answer.question.dump
    direct = direct_memory(dump)
    ran_out, capacity, report = threads_that_ran_out(dump), heap_capacity(dump), answer.question.runs.report
    others = [asked_words(dump, place, report.reachable.bytes, capacity) for place in ran_out]
    others += [captured_words(answer.lines), direct_words(answer, direct), unreachable_words(answer)]
    others += [*many_loaders_words(dump, report), *many_threads_words(dump)]
    return HeapNotes(
        capacity, ran_out, local_places(answer), direct, weakly_held_in_one(answer), list(filter(None, others))
    )


def sentences_of(answer: HeapAnswer, notes: HeapNotes, rest: Sequence[str]) -> List[str]:
    """Returns all that is said beside the lines. `rest`: what they do not have."""
    ran_out = [f"memory ran out in {place}" for place in notes.ran_out]
    found = [fullness_words(answer, notes), *lines_words(answer.lines), contents_words(answer.contents), *ran_out]
    return [each for each in [*found, *notes.locals, notes.weak, *notes.others, *rest, SECOND] if each]


def fullness_words(answer: HeapAnswer, notes: HeapNotes) -> str:
    """Returns in words how much is in the heap, and how much may be."""
    report = answer.question.runs.report
    text = f"{size(report.reachable.bytes)} are reachable, in {counted(report.reachable.objects, 'object')}"
    if not notes.capacity:
        return text
    return f"{text}; the heap may have {size(notes.capacity)}" + ", with headers and padding" * (not report.in_heap)


def contents_words(contents: Sequence[Row]) -> str:
    """Returns in words what the first line retains, empty if that is nothing."""
    parts = [f"{row.amount.objects:,} {row.name} ({size(row.amount.bytes)})" for row in contents[:SHOWN_CLASSES]]
    more = len(contents) - len(parts)
    if more:
        parts.append(f"{more} more {'class' if more == 1 else 'classes'}")
    return f"line 1 holds {', '.join(parts)}" if parts else ""


def local_places(answer: HeapAnswer) -> List[str]:
    """Returns in words which threads have the local variables of lines, or those above them."""
    steps = (step for line in answer.lines for step in [*line.above, line.held])
    methods = dict.fromkeys(each.name for step in steps for each in step.candidates if each.kind == LOCAL)
    dump = answer.question.dump
    return [f"local {name} is of {place}" for name in methods for place in threads_in(dump, name)[:SHOWN_THREADS]]


def weakly_held_in_one(answer: HeapAnswer) -> str:
    """Returns in words what weak references hold, empty if that is little."""
    followed, probe = answer.question.followed, answer.question.probe
    if 100 * probe.unit.of(followed.amount) < MUCH * max(1, probe.unit.of(probe.growth)):
        return followed.why
    held = f"{size(followed.amount.bytes)} in {counted(followed.amount.objects, 'object')}"
    return f"only soft, weak, final or phantom references hold {held} more: see --weak"


def direct_words(answer: HeapAnswer, direct: DirectMemory) -> str:
    """Returns in words what direct buffers have, empty if that is little."""
    if not direct.bytes or 100 * direct.bytes < MUCH * answer.question.runs.report.reachable.bytes:
        return ""
    have = "has" if direct.buffers == 1 else "have"
    return f"{counted(direct.buffers, 'direct buffer')} {have} {size(direct.bytes)} outside the heap"


def unreachable_words(answer: HeapAnswer) -> str:
    """Returns in words what is unreachable, empty if that is little."""
    report = answer.question.runs.report
    if not report.unreachable.bytes or 100 * report.unreachable.bytes < MUCH * report.reachable.bytes:
        return ""
    return f"{size(report.unreachable.bytes)} more are unreachable: {WHY_UNREACHABLE}"
