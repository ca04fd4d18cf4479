"""The section of the classes that grew, and the tables of what the first line holds."""

from typing import List, Sequence

from heap_tools.page.chart_lines import time_places
from heap_tools.page.model import GrownClass, Leak, Limits
from heap_tools.page.names import name_of
from heap_tools.page.sections import Section
from heap_tools.page.small_lines import lowest_and_highest, small_line
from heap_tools.page.tables import amount_cells, bar, body, left_out, table
from heap_tools.page.templates import Html, fill, joined
from heap_tools.page.words import figure, figure_in, from_to, with_sign
from heap_tools.reports import Row, Unit

#: The part of the growth of the heap from which on a class is shown, and how many classes are shown anyway.
SHOWN_GROWTH, FEWEST_GROWN = 1 / 100, 3


def grown_classes(leak: Leak, limits: Limits) -> Section:
    """Returns the section of the classes that grew."""
    text = "No class has more objects or more bytes in the last dump than in the first."
    shown = grown_table(leak, limits) if leak.grown else fill("paragraph", text=text)
    return Section("grown", "Classes that grew", "Which classes grew", shown)


def shown_of(leak: Leak, limits: Limits) -> List[GrownClass]:
    """Returns the classes that grew by enough to be shown. Where the heap did not grow, enough is a part of what the
    class that grew most did."""
    return grown_enough(leak.grown, leak.by.of(leak.rise), leak.by)[: limits.grown]


def grown_enough(classes: Sequence[GrownClass], rise: int, unit: Unit) -> List[GrownClass]:
    """Returns those of `classes` that grew by a hundredth of the `rise` or of what one of them did, and some anyway."""
    growths = [unit.of(it.growth) for it in classes]
    least = SHOWN_GROWTH * max(rise, *growths)
    return list(classes[: max(FEWEST_GROWN, sum(growth >= least for growth in growths))])


def grown_table(leak: Leak, limits: Limits) -> Html:
    """Returns the table of the classes that grew, with a small line for each if there are more than two dumps."""
    shown, has_lines = shown_of(leak, limits), len(leak.dumps) > 2
    rows = body(grown_row(it, leak, shown, limits, has_lines) for it in shown)
    about = f"Classes that have more objects or bytes in the last dump. Bars show {leak.by.value}."
    if has_lines:
        about = (
            f"Classes that have more objects or bytes in the last dump. Bars and lines show {leak.by.value}; a line "
            "rises as much as the class grew, and all lines have one scale."
        )
    heads = {"Class": "name", "Growth": "growth"}
    heads.update({"Over the dumps": "line"} if has_lines else {})
    heads.update({"Objects": "number", "Bytes": "number"})
    parts = [fill("about", text=about), table("grown", "The classes that grew", heads, [rows])]
    return joined([*parts, left_out(len(leak.grown) - len(shown), "class", "that grew by less")])


def grown_row(it: GrownClass, leak: Leak, shown: List[GrownClass], limits: Limits, has_line: bool) -> Html:
    """Returns the row of a class that grew, one of those `shown`, with a small line of its amounts or without."""
    unit, first, last = leak.by, it.amounts[0], it.amounts[-1]
    line = Html()
    if has_line:
        scale = lowest_and_highest([[unit.of(amount) for amount in each.amounts] for each in shown])
        numbers = [unit.of(amount) for amount in it.amounts]
        line = fill("line_cell", line=small_line(time_places(leak.dumps), numbers, scale, unit))
    return fill(
        "grown_row",
        name=name_of(it.name, limits.name),
        growth=figure_in(unit.of(it.growth), unit, is_difference=True),
        also=with_sign(unit.other.of(it.growth), unit.other),
        bar=bar(unit.of(it.growth), max(0, *(unit.of(each.growth) for each in shown)), "growth"),
        line=line,
        objects=from_to(figure(first.objects, "object"), figure(last.objects, "object")),
        bytes=from_to(figure(first.bytes, "byte"), figure(last.bytes, "byte")),
    )


def contents_table(leak: Leak, limits: Limits) -> Html:
    """Returns the table of what the first holder holds, class by class, and how much more that is than before."""
    if not leak.contents:
        return Html()
    gain = leak.holders[0].after.amount.minus(leak.holders[0].before.amount)
    shown = grown_enough(leak.contents, leak.by.of(gain), leak.by)[: limits.parts]
    rows = body(grown_row(it, leak, shown, limits, has_line=False) for it in shown)
    about = f"All that would be unreachable without it, in the first dump and in the last. Bars show {leak.by.value}."
    heads = {"Class": "name", "Growth": "growth", "Objects": "number", "Bytes": "number"}
    parts = [fill("subhead", text="What line 1 holds"), fill("about", text=about)]
    parts.append(table("grown", "What line 1 holds, by class", heads, [rows], "contents"))
    return joined([*parts, left_out(len(leak.contents) - len(shown), "class")], "\n")


def class_table(contents: Sequence[Row], total: int, limits: Limits) -> Html:
    """Returns the table of classes with their objects and bytes, and their share of `total` bytes."""
    cells = ((name_of(it.name, limits.name), amount_cells(it.amount, total)) for it in contents)
    rows = body(fill("last_row", kind=Html(), name=name, cells=amounts) for name, amounts in cells)
    heads = {"Class": "name", "Objects": "number", "Bytes": "number", "Share": "shares"}
    return table("contents", "What line 1 holds, by class", heads, [rows])
