"""The top of the page of two or more dumps, and the figures beside its chart."""

from typing import List, Optional

from heap_tools import humanize
from heap_tools.omissions import large_unreachable
from heap_tools.page.model import HolderEntry, Leak, Limits
from heap_tools.page.names import in_java, name_of, names_of, path_to, subject_of, verb_of
from heap_tools.page.sections import Top, facts, notes
from heap_tools.page.templates import Html, escaped, fill, joined, plain
from heap_tools.page.words import MINUS, PLUS, ZERO, figure, figure_in, from_to, full, moment, percent
from heap_tools.page.words import percent_more, period, sign_of, solid, with_sign
from heap_tools.reports import Unit

MINUTE, HOUR = 60_000, 3_600_000


def top(leak: Leak, limits: Limits) -> Top:
    """Returns the top of the page."""
    dumps = humanize.counted(len(leak.dumps), "dump")
    taken = joined(filter(None, [period(leak.dumps[0].time, leak.dumps[-1].time), dumps]), ", ")
    large = large_unreachable(leak.more_unreachable, leak.rise, leak.dumps[-1].reachable)
    warning = fill("warning", text=large) if large else Html()
    return Top(
        title=title(leak),
        facts=facts(leak.program, taken, limits),
        headline=headline(leak, limits),
        through=path_to(leak.holders[0].above, limits) if leak.holders else Html(),
        lead=lead(leak),
        notes=joined([warning, notes([leak.weak, *leak.notes], limits)], "\n"),
    )


def span(leak: Leak) -> Optional[int]:
    """Returns the milliseconds between the first and the last dump, or `None` if these are not known or below 1000."""
    first, last = leak.dumps[0].time, leak.dumps[-1].time
    if first is None or last is None or moment(first) is None or moment(last) is None:
        return None
    return last - first if last >= first + 1000 else None


def headline(leak: Leak, limits: Limits) -> Html:
    """Returns the answer: what holds how much, and how much it was."""
    unit = leak.by
    if not leak.holders:
        grew = unit.of(leak.rise) > 0
        return escaped("No field, local variable or thread alone holds what grew" if grew else "The heap did not grow")
    first = leak.holders[0]
    before = figure_in(unit.of(first.before.amount), unit)
    return fill(
        "headline",
        subject=subject_of(first.fields),
        name=names_of(first.fields, limits),
        verb=verb_of(first.fields),
        held=figure_in(unit.of(first.after.amount), unit),
        of_class=fill("of_class", name=name_of(leak.of_class, limits.name)) if leak.of_class else Html(),
        rest=joined([", up from ", before]),
    )


def title(leak: Leak) -> str:
    """Returns the title of the page."""
    if not leak.holders:
        first, last = (full(leak.by.of(leak.dumps[at].reachable), leak.by) for at in (0, -1))
        return f"Heap: {first} to {last}"
    holder = leak.holders[0]
    before, after = (full(leak.by.of(held.amount), leak.by) for held in (holder.before, holder.after))
    return f"{plain(in_java(holder.fields[0].name), 100)}: {before} to {after}"


def is_of_bytes_that_grew(leak: Leak) -> bool:
    """Tests whether the bytes say all of the heap: they count, and there are more of them. Else its objects are shown,
    too."""
    return leak.by is Unit.BYTES and leak.rise.bytes > 0


def lead(leak: Leak) -> Html:
    """Returns how the reachable heap changed."""
    between, unit = span(leak), leak.by
    changes = [change_verb(leak, unit), from_first_to_last(leak, unit)]
    if not is_of_bytes_that_grew(leak):
        verbs = [change_verb(leak, each) for each in (unit, unit.other)]
        changes += [", and ", verbs[1] if verbs[0] != verbs[1] else "", from_first_to_last(leak, unit.other)]
    return fill(
        "lead",
        period=f"In {solid(humanize.duration(between))}" if between else "From the first dump to the last",
        changes=joined(changes),
    )


def change_verb(leak: Leak, unit: Unit) -> str:
    """Returns what the bytes or the objects of the reachable heap did."""
    return {PLUS: "grew ", MINUS: "shrank ", ZERO: "stayed "}[sign_of(unit.of(leak.rise))]


def from_first_to_last(leak: Leak, unit: Unit) -> Html:
    """Returns how many bytes or objects were reachable first and at last."""
    first, last = unit.of(leak.dumps[0].reachable), unit.of(leak.dumps[-1].reachable)
    parts = ["at "] if first == last else ["from ", figure(first, unit.noun), " to "]
    return joined([*parts, figure_in(last, unit)])


def tiles(leak: Leak) -> Html:
    """Returns the figures beside the chart. What the sentence at the top says is not among them."""
    parts = [pace_tile(leak)]
    if leak.holders:
        first = leak.holders[0]
        ends = from_to(percent(first.before.percent), percent(first.after.percent))
        share = fill("tile", name=f"Its share of {whole_words(leak)}", value=ends, note=f"of {leak.whole}")
        parts = [growth_tile(leak, first), share, *parts]
    return joined(parts, "\n")


def growth_tile(leak: Leak, holder: HolderEntry) -> Html:
    """Returns the share of the growth that a holder has."""
    unit = leak.by
    gain = unit.of(holder.after.amount) - unit.of(holder.before.amount)
    note = f"{with_sign(gain, unit)} of {with_sign(unit.of(leak.growth), unit)}"
    if not leak.is_of_all:
        note += f" of {in_java(leak.of_class) if leak.of_class else 'the classes that grew'}"
    elif is_less(leak):
        note += ", without weak references" + " and running calls" * (not leak.counts_calls)
    return fill("tile", name="Its share of the growth", value=percent(holder.share), note=note)


def is_less(leak: Leak) -> bool:
    """Tests whether shares are of less than the growth of the heap."""
    return leak.is_of_all and leak.growth != leak.rise


def pace_tile(leak: Leak) -> Html:
    """Returns how fast the reachable heap grew, or how much if that is not known."""
    between, unit = span(leak), leak.by
    before, after = (unit.of(leak.dumps[at].reachable) for at in (0, -1))
    notes_of: List[str] = [percent_more(before, after)] if before > 0 else []
    if not between or between < MINUTE:
        value = notes_of[0] if notes_of else with_sign(after - before, unit)
        return fill("tile", name="Growth of the reachable heap", value=value, note="")
    speed = round((after - before) * HOUR / between)
    notes_of.append(f"in {humanize.duration(between)}")
    return fill("tile", name="Growth of the heap", value=f"{with_sign(speed, unit)} per hour", note=" ".join(notes_of))


def whole_words(leak: Leak) -> str:
    """Returns what a share of one dump is of, in short."""
    return "the heap" if leak.is_of_all else "the class" if leak.of_class else "these classes"
