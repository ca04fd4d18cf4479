"""The section of what holds much of one heap: the path to it from a root as a picture, what is in it, and all suspects
as a table."""

from typing import Optional

from heap_tools.page.classes import class_table
from heap_tools.page.holders import what_lines_are
from heap_tools.page.model import HeldShare, Limits, ObjectEntry, OneDump, RanOutEntry, SuspectEntry
from heap_tools.page.names import kind_of, name_of, names_of, path_row, shown_steps, thread_name
from heap_tools.page.objects import frames, names_of_object, object_table
from heap_tools.page.sections import Section, next_steps
from heap_tools.page.tables import left_out, share, table
from heap_tools.page.templates import Html, escaped, fill, joined
from heap_tools.page.words import figure, figure_in


def suspects(dump: OneDump, limits: Limits) -> Section:
    """Returns the section of what holds much of the heap."""
    parts = [fill("paragraph", text="No field, local variable or thread alone holds much of the heap.")]
    if dump.suspects:
        parts = [chain(dump, limits), contents(dump, limits), suspect_table(dump, limits)]
    others = [it for it in dump.objects if it is not drawn_object(dump)]
    parts += [object_table(others, limits), next_steps(dump.next_steps)]
    return Section("holders", "What holds it", "What holds it", joined(filter(None, parts), "\n"))


def is_below(suspect: SuspectEntry, upper: SuspectEntry) -> bool:
    """Tests whether a suspect is reached through another."""
    return any(step.fields == upper.fields for step in suspect.above)


def drawn_object(dump: OneDump) -> Optional[ObjectEntry]:
    """Returns the object that the path ends with: one that has the field of the first suspect, or of one below it."""
    first = dump.suspects[:1]
    for it in dump.objects:
        of_line = dump.suspects[it.line - 1 : it.line]
        if of_line and (it.line == 1 or is_below(of_line[0], first[0])):
            return it
    return None


def chain(dump: OneDump, limits: Limits) -> Html:
    """Returns the path from a root down to the first suspect, and on to the object that holds most if one is known,
    with what each step holds."""
    first, drawn = dump.suspects[0], drawn_object(dump)
    last = dump.suspects[drawn.line - 1] if drawn else first
    links = []
    for step in shown_steps(last.above, limits):
        kind = "main" if step.fields == first.fields else "step"
        name = joined([names_of(step.fields, limits), escaped(step.others)])
        links.append(link(kind, kind_of(step.fields), name, held_by(step.held, dump)))
    if len(last.above) > len(links):
        links.insert(len(links) - 1, fill("chain_gap", text=f"{len(last.above) - len(links)} more"))
    kind = "main" if last is first else "step"
    links.append(link(kind, kind_of(last.fields), names_of(last.fields, limits), held_by(last.held, dump)))
    if drawn:
        links.append(object_link(drawn, last, dump, limits))
    about = "The path from a GC root down to what holds most: what each step holds, and its share of the heap."
    return fill("chain", about=about, links=joined(links, "\n"))


def link(kind: str, word: str, name: Html, held: Html) -> Html:
    """Returns a link of the chain: a field, and what it holds."""
    return fill("chain_link", kind=kind, word=word, name=name, held=held)


def held_by(held: Optional[HeldShare], dump: OneDump) -> Html:
    """Returns what a link of the chain holds, and its share of the heap, if that is known."""
    if held is None:
        return Html()
    amount = figure_in(dump.by.of(held.amount), dump.by)
    return fill("chain_held", held=amount, share=share(held.percent, "part"))


def object_link(it: ObjectEntry, suspect: SuspectEntry, dump: OneDump, limits: Limits) -> Html:
    """Returns the link of the object, one of those that have the field of `suspect`."""
    name = joined([name_of(it.class_name, limits.name), names_of_object(it.names, limits)], " ")
    of_heap = share(it.percent * suspect.held.percent / 100, "part")
    held = fill("chain_held", held=figure(it.bytes, "byte"), share=of_heap)
    return link("object", f"1 of {suspect.instances:,}", name, held)


def contents(dump: OneDump, limits: Limits) -> Html:
    """Returns the classes of what the first suspect holds."""
    if not dump.contents:
        return Html()
    size, shown = dump.suspects[0].held.amount.bytes, dump.contents[: limits.parts]
    parts = [fill("subhead", text="What line 1 holds"), class_table(shown, max(1, size), limits)]
    return joined([*parts, left_out(len(dump.contents) - len(shown), "class")], "\n")


def suspect_table(dump: OneDump, limits: Limits) -> Html:
    """Returns the table of the suspects."""
    shown = dump.suspects[: limits.holders]
    about = (
        f"Without one of these, much of the heap would be unreachable. {what_lines_are(dump.shows_all)} Shares are of "
        f"{dump.whole}."
    )
    heads = {"Held by": "name", "Instances": "number", "Objects": "number", "Bytes": "number", "Share": "shares"}
    rows = (suspect_row(line, it, limits) for line, it in enumerate(shown, 1))
    parts = [fill("subhead", text="All that holds much"), fill("about", text=about)]
    parts.append(table("holders", "What holds much of the heap", heads, rows))
    return joined([*parts, left_out(len(dump.suspects) - len(shown), "row")], "\n")


def suspect_row(line: int, it: SuspectEntry, limits: Limits) -> Html:
    """Returns the row of a suspect, which is the line of this number."""
    return fill(
        "suspect_row",
        line=line,
        kind=kind_of(it.fields),
        name=names_of(it.fields, limits),
        path=path_row(it.above, 5, limits, it.elements),
        instances=figure(it.instances, "instance"),
        objects=figure(it.held.amount.objects, "object"),
        bytes=figure(it.held.amount.bytes, "byte"),
        share=share(it.held.percent, "growth"),
    )


def ran_out(dump: OneDump, limits: Limits) -> Section:
    """Returns the section of the threads that ran out of memory."""
    about = (
        "These methods were asking for memory when there was none left. They need not be what filled the heap: any "
        "thread may be the one that runs out."
    )
    parts = [fill("about", text=about)]
    parts += [thread_that_ran_out(it, limits) for it in dump.ran_out[: limits.holders]]
    parts.append(left_out(len(dump.ran_out) - limits.holders, "thread"))
    return Section("ran-out", "Out of memory", "Where memory ran out", joined(filter(None, parts), "\n"))


def thread_that_ran_out(it: RanOutEntry, limits: Limits) -> Html:
    """Returns a thread that ran out of memory, with its methods."""
    shown = frames(it.frames, limits, it.own) if it.frames else Html("not known")
    return fill("ran_out", name=thread_name(it.thread, limits), frames=shown)
