"""The page of `sizes --html`: what a heap is made of, as the virtual machine counts it."""

from dataclasses import dataclass
from typing import Dict, List

from heap_tools.page.made_of import made_of
from heap_tools.page.model import DumpEntry, Limits, Making, ProgramEntry
from heap_tools.page.sections import Top, facts, making, notes, whole_page
from heap_tools.page.templates import Html, fill, joined
from heap_tools.page.words import figure_in, full, period
from heap_tools.reports import Amount, Unit


#: What is said of numbers of objects that heapmark did not count.
COUNTED_BY_TOOL = (
    "Reachable and unreachable objects in all are counted by heapmark; the objects of each class, reachable or not, "
    "are counted by the tool. "
)


@dataclass(frozen=True)
class Sizes:
    """All that the page shows. `classes`: all objects of each class, `unreachable`: those that are unreachable,
    `omitted`: the objects that the dump lacks. `has_heap_bytes`: the layout of the heap is known. `notes`: sentences,
    of which one says how sizes were found."""

    dump: DumpEntry
    classes: Dict[str, Amount]
    unreachable: Dict[str, Amount]
    omitted: Amount
    has_heap_bytes: bool
    making: Making
    program: ProgramEntry
    notes: List[str]


def page_of_sizes(sizes: Sizes, limits: Limits) -> Html:
    """Returns the page."""
    sections = [made_of(sizes.classes, "the heap", limits, every="All in the dump")]
    if sizes.unreachable:
        part = "the unreachable part of the heap"
        section = made_of(sizes.unreachable, part, limits, "unreachable", "All unreachable")
        sections.append(section._replace(label="Unreachable"))
    sections.append(making(sizes.making, [sizes.dump], limits))
    return whole_page(top_of_sizes(sizes, limits), sections, sizes.making.time, sizes.has_heap_bytes, COUNTED_BY_TOOL)


def top_of_sizes(sizes: Sizes, limits: Limits) -> Top:
    """Returns the top of the page: how much the heap has, reachable and not."""
    it = sizes.dump
    whole = it.reachable.plus(it.unreachable).plus(sizes.omitted)
    reachable, unreachable = (figure_in(each.bytes, Unit.BYTES) for each in (it.reachable, it.unreachable))
    parts = [reachable, " that are reachable, and ", unreachable, " that are not"]
    if sizes.omitted.objects:
        omitted = figure_in(sizes.omitted.bytes, Unit.BYTES)
        parts = [
            reachable,
            " that are reachable, ",
            unreachable,
            " that are not, and ",
            omitted,
            " that the dump omits",
        ]
    return Top(
        title=f"Heap: {full(whole.bytes, Unit.BYTES)}",
        facts=facts(sizes.program, period(it.time, it.time), limits),
        headline=joined([figure_in(whole.bytes, Unit.BYTES), " in ", figure_in(whole.objects, Unit.OBJECTS)]),
        through=Html(),
        lead=fill("lead_of_one", heap=joined(parts)),
        notes=notes(sizes.notes, limits),
        tool="sizes",
    )
