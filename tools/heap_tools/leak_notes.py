"""What `leaks` says beside its lines: which objects hold most, which threads and classes there are more of, which own
classes grew, what is held by weak references alone, and what is outside the heap."""

import re
from typing import List, NamedTuple, Sequence

from heap_tools.candidates import joint_name
from heap_tools.class_counts import grown_class_counts
from heap_tools.class_growth import ClassGrowth, growths
from heap_tools.class_names import is_own
from heap_tools.comparison import Comparison
from heap_tools.direct_buffers import more_direct_words
from heap_tools.humanize import counted
from heap_tools.leak_answer import Answer
from heap_tools.leak_lines import Line
from heap_tools.leak_options import Bounds
from heap_tools.reports import Report
from heap_tools.thread_counts import ThreadCount, grown_thread_counts
from heap_tools.which_object import hidden, sentence

#: What is said of lines that are not `LineOrder.lasts`: the first one may be threads that leak, or any payload.
NOTHING_LASTS = (
    "nothing that lasts holds a quarter of what grew, alone or with two others: only new objects do, and line 1 is the "
    "topmost of these"
)
#: How many patterns of names of threads are said, how many kinds of loaders, and how many classes that grew.
PATTERNS = 3


class Notes(NamedTuple):
    """All that is said beside the lines. `sentences` are on what the lines do not have, and `own_classes` is one on the
    classes that grew, which a page has in a table."""

    threads: List[ThreadCount]
    sentences: List[str]
    own_classes: str = ""


def notes_of(comparison: Comparison, lines: Sequence[Line]) -> Notes:
    """Returns what is to be said beside lines."""
    grew = comparison.last.report.reachable.minus(comparison.first.report.reachable)
    direct = more_direct_words(comparison.first.dump, comparison.last.dump, grew.bytes)
    threads = grown_thread_counts(comparison.first.dump, comparison.last.dump)[:PATTERNS]
    classes = map(str, grown_class_counts(comparison.first.dump, comparison.last.dump)[:PATTERNS])
    every = (*classes, comparison.weak_words, direct, captured_words(lines))
    sentences = [each for each in every if each]
    own_classes = own_classes_words([each.report for each in comparison.dumps])
    return Notes(threads, sentences, own_classes)


def own_classes_words(reports: Sequence[Report]) -> str:
    """Returns of which own classes there are most objects more in the last report than in the first, empty if there are
    none."""
    grown = grown_own_classes(reports)
    shown = ", ".join(f"{each.amount.objects:,} {each.name}" for each in grown[:PATTERNS])
    more = f", and {counted(len(grown) - PATTERNS, 'class')} more: see grown --own" if len(grown) > PATTERNS else ""
    return f"own classes that grew: {shown}{more}" if grown else ""


def grown_own_classes(reports: Sequence[Report]) -> List[ClassGrowth]:
    """Returns the own classes of which there are more objects, as `grown --own` shows them."""
    return [each for each in growths(reports) if is_own(each.name) and each.amount.objects > 0]


def captured_words(lines: Sequence[Line]) -> str:
    """Returns what fields of lambdas in the lines are, empty if there are none: their names say nothing."""
    names = [each.name for line in lines for held in [*line.above, line.held] for each in held.candidates]
    captured = [name for name in names if re.search(r"\$\$Lambda\.arg\$[0-9]+$", name)]
    if not captured:
        return ""
    where = captured[0].partition("$$Lambda")[0]
    return f"field {captured[0]} is a variable that a lambda in {where} captured: arg$1 is the first one, or `this`"


def without_values(lines: Sequence[Line], shows_values: bool) -> List[Line]:
    """Returns lines whose objects are named without texts of the dump, unless `shows_values`."""
    shown = (
        line.objects and line.objects._replace(objects=hidden(line.objects.objects, shows_values)) for line in lines
    )
    return [line._replace(objects=objects) for line, objects in zip(lines, shown)]


def lines_words(lines: Sequence[Line]) -> List[str]:
    """Returns what is known of lines, a sentence each: the roots above those whose path begins at a field, which
    objects gained most of what a line did, and how many elements its container has, and had."""
    roots, objects, elements = [], [], []
    for number, line in enumerate(lines, 1):
        if line.roots:
            roots.append(f"line {number}: {joint_name(line.roots.first.candidates)}: {line.roots}")
        if line.objects:
            of_field = sentence(joint_name(line.objects.held.candidates), line.objects.objects)
            objects.append(f"line {number}: {of_field}")
        if line.elements is not None:
            elements.append(f"line {number}: {joint_name(line.held.candidates)}: {elements_of(line)}")
    return [*roots, *objects, *elements]


def elements_of(line: Line) -> str:
    """Returns how many elements the containers of a line have, and had, empty if that is not known."""
    if line.elements is None:
        return ""
    was = f"{line.elements_before:,}, then " if line.elements_before is not None else ""
    return was + counted(line.elements, "element")


def notes_words(notes: Notes) -> List[str]:
    """Returns what is beside the lines, a sentence each."""
    threads = [f"{counted(each.after - each.before, 'thread')} more: {each}" for each in notes.threads]
    return [*filter(None, [notes.own_classes]), *threads, *notes.sentences]


def rest_words(answer: Answer, bounds: Bounds, whole: str) -> List[str]:
    """Returns what the lines do not have of `whole`, a sentence each."""
    if not answer.lines:
        alone = f"no field, local variable or thread alone holds {bounds.first}% of {whole}"
        return [alone + ": see --at-least" * (bounds.first > 1)]
    if answer.hidden:
        hold = "holds" if answer.hidden == 1 else "hold"
        return [f"{answer.hidden} more {hold} {bounds.first}% or more: see --top"]
    if answer.beside:
        name, share = joint_name(answer.beside.held.candidates), answer.beside.share
        return [f"beside the lines, {name} gained {share:.0f}% of {whole}, while as much was lost elsewhere: see --all"]
    if bounds.shows_all or answer.left_percent < bounds.others:
        return []
    left = f"{answer.left_percent:.0f}% of {whole} are in no line"
    if len(answer.lines) == bounds.top:
        return [f"{left}: see --top"]
    if answer.is_above:
        return [f"{left}: what is above a line holds {bounds.others}% or more: see --all"]
    return [f"{left}: nothing else that lasts holds {bounds.others}%"]
