"""How full the heap of one dump is, and of what: figures, and a bar that has all of it."""

from typing import List, NamedTuple

from heap_tools.page.model import Limits, OneDump
from heap_tools.page.names import names_of
from heap_tools.page.sections import Section, what_bytes_are
from heap_tools.page.templates import Html, escaped, fill, joined
from heap_tools.page.words import figure, figure_in, percent
from heap_tools.reports import Unit


class BarPart(NamedTuple):
    """A part of the bar: its kind, what it is, and its size."""

    kind: str
    words: Html
    size: int


def fullness(dump: OneDump, limits: Limits) -> Section:
    """Returns the section of how full the heap is."""
    parts = bar_parts(dump, limits)
    shown = fill("above", tiles=fullness_tiles(dump), picture=bar_of(parts, dump.by))
    body = joined([shown, what_bytes_are(dump.layout, limits)], "\n")
    return Section("heap", "Heap", "How full the heap is", body)


def free_bytes(dump: OneDump) -> int:
    """Returns how many bytes the heap may have more, 0 if that is not known: bytes of the dump are no bytes of the
    heap."""
    if dump.capacity is None or dump.layout is None or dump.by is not Unit.BYTES:
        return 0
    return max(0, dump.capacity - dump.dump.reachable.bytes - dump.dump.unreachable.bytes)


def bar_parts(dump: OneDump, limits: Limits) -> List[BarPart]:
    """Returns the parts of the bar: what the first suspect holds, all else that is reachable, what is unreachable, and
    what is free."""
    unit, it = dump.by, dump.dump
    held = unit.of(dump.suspects[0].held.amount) if dump.suspects else 0
    parts = [
        BarPart("reachable", escaped(f"{'other ' * bool(held)}reachable {unit.value}"), unit.of(it.reachable) - held),
        BarPart("unreachable", escaped(f"unreachable {unit.value}"), unit.of(it.unreachable)),
        BarPart("free", escaped("free, or taken by what no dump has"), free_bytes(dump)),
    ]
    if held:
        parts.insert(0, BarPart("held", joined(["held by ", names_of(dump.suspects[0].fields, limits)]), held))
    return [part for part in parts if part.size > 0]


def bar_of(parts: List[BarPart], unit: Unit) -> Html:
    """Returns the bar, and what its parts are."""
    whole, at, boxes = max(1, sum(part.size for part in parts)), 0.0, []
    for part in parts:
        width = 1000 * part.size / whole
        boxes.append(fill("full_part", kind=part.kind, x=f"{at:.1f}", width=f"{width:.1f}"))
        at += width
    keys = (fill("full_key", kind=part.kind, size=figure_in(part.size, unit), text=part.words) for part in parts)
    shares = ", ".join(f"{part.kind} {percent(100 * part.size / whole)}" for part in parts)
    picture = fill("full_bar", boxes=joined(boxes), description=f"The heap in parts: {shares}.")
    return fill("figure_of", picture=picture, caption=joined(keys, "\n"))


def fullness_tiles(dump: OneDump) -> Html:
    """Returns the figures beside the bar."""
    unit, it, parts = dump.by, dump.dump, []
    if dump.suspects:
        share = percent(dump.suspects[0].held.percent)
        parts.append(fill("tile", name="Its share of the heap", value=share, note=f"of {dump.whole}"))
    parts.append(
        fill(
            "tile",
            name="Reachable heap",
            value=figure_in(unit.of(it.reachable), unit),
            note=figure_in(unit.other.of(it.reachable), unit.other),
        )
    )
    if dump.capacity:
        parts.append(capacity_tile(dump, dump.capacity))
    return joined(parts, "\n")


def capacity_tile(dump: OneDump, capacity: int) -> Html:
    """Returns how much the heap may have, and how much of that is in use, if bytes are those of the heap."""
    if dump.layout is None:
        note = "with headers and padding of objects, which are not counted here"
        return fill("tile", name="The heap may have", value=figure(capacity, "byte"), note=note)
    used = dump.dump.reachable.bytes + dump.dump.unreachable.bytes
    note = joined(["of ", figure(capacity, "byte"), " that the heap may have, with what is unreachable"])
    return fill("tile", name="In use", value=percent(100 * used / capacity), note=note)
