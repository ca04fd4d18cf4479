"""The page of one dump: what fills its heap."""

from typing import List

from heap_tools.page.fullness import fullness
from heap_tools.page.made_of import made_of
from heap_tools.page.model import Limits, OneDump, RanOutEntry
from heap_tools.page.names import in_java, name_of, names_of, subject_of, thread_words, verb_of
from heap_tools.page.sections import Section, Top, facts, making, notes, omitted, terms, whole_page
from heap_tools.page.suspects import ran_out, suspects
from heap_tools.page.templates import Html, escaped, fill, joined, plain
from heap_tools.page.words import figure_in, full, percent, period
from heap_tools.reports import Unit

#: What one dump cannot show.
ONE_ONLY = (
    "One dump shows what holds the heap, not what grows: a large cache that is as large as it should be looks the "
    "same. "
    "Take a second dump later, and compare both: leaks FIRST SECOND."
)


def top_of_dump(dump: OneDump, limits: Limits) -> Top:
    """Returns the top of the page."""
    said = [*(out_of_memory(it) for it in dump.ran_out[:1]), dump.weak, *dump.notes, ONE_ONLY]
    return Top(
        title=title_of_dump(dump),
        facts=facts(dump.program, period(dump.dump.time, dump.dump.time), limits),
        headline=headline_of_dump(dump, limits),
        through=Html(),  # it is drawn below
        lead=lead_of_dump(dump),
        notes=notes(said, limits),
    )


def out_of_memory(it: RanOutEntry) -> str:
    """Returns which thread ran out of memory, and in which method: the first of an own class, if there is one."""
    method = it.frames[it.own or 0] if it.frames else ""
    place = f" in {plain(method, 240)}" if method else ""
    return f"{thread_words(it.thread)} ran out of memory{place}."


def headline_of_dump(dump: OneDump, limits: Limits) -> Html:
    """Returns the answer: what holds how much of the heap."""
    unit = dump.by
    if not dump.suspects:
        return escaped("No field, local variable or thread alone holds much of the heap")
    first = dump.suspects[0]
    whole = f"the {unit.value}" if dump.of_class else "the reachable heap"
    return fill(
        "headline",
        subject=subject_of(first.fields),
        name=names_of(first.fields, limits),
        verb=verb_of(first.fields),
        held=figure_in(unit.of(first.held.amount), unit),
        of_class=fill("of_class", name=name_of(dump.of_class, limits.name)) if dump.of_class else Html(),
        rest=f", {percent(first.held.percent)} of {whole}",
    )


def title_of_dump(dump: OneDump) -> str:
    """Returns the title of the page."""
    whole = full(dump.by.of(dump.dump.reachable), dump.by)
    if not dump.suspects:
        return f"Heap: {whole}"
    first = dump.suspects[0]
    return f"{plain(in_java(first.fields[0].name), 100)}: {full(dump.by.of(first.held.amount), dump.by)} of {whole}"


def lead_of_dump(dump: OneDump) -> Html:
    """Returns what the heap has."""
    it = dump.dump
    parts = [figure_in(it.reachable.bytes, Unit.BYTES), " in ", figure_in(it.reachable.objects, Unit.OBJECTS)]
    if it.unreachable.objects > 0:
        parts += [" that are reachable, and ", figure_in(it.unreachable.bytes, Unit.BYTES), " that are not"]
    else:
        parts.append(", all of which are reachable")
    return fill("lead_of_one", heap=joined(parts))


def page_of_dump(dump: OneDump, limits: Limits) -> Html:
    """Returns the page."""
    sections: List[Section] = [fullness(dump, limits), suspects(dump, limits)]
    if dump.ran_out:
        sections.append(ran_out(dump, limits))
    sections += [
        made_of(dump.classes, "the heap", limits, shares=dump.shares),
        omitted(dump.omitted, [dump.dump], dump.layout, limits),
        terms(),
        making(dump.making, [dump.dump], limits),
    ]
    return whole_page(top_of_dump(dump, limits), sections, dump.making.time, bool(dump.layout))
