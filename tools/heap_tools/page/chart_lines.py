"""The lines of the chart of the heap: their points over the dumps, and what they are in words."""

from dataclasses import dataclass
from typing import Dict, List, Sequence, TypeVar

from heap_tools.page.model import DumpEntry, Leak, Limits
from heap_tools.page.names import names_in_words
from heap_tools.page.words import full
from heap_tools.reports import Amount, Unit

#: The most points of a line.
MOST_POINTS = 60
#: The lines of the chart: what is known of each dump, and what is measured in some only.
REACHABLE, UNREACHABLE, HELD = "reachable", "unreachable", "held"
#: From which part of the reachable heap on what is unreachable is a line.
DRAWN_UNREACHABLE = 1 / 50

Spaced = TypeVar("Spaced")


@dataclass(frozen=True)
class Point:
    """A point of a line: the number of the dump, its place between 0 and 1 along the time, and what is there."""

    dump: int
    place: float
    number: int


@dataclass(frozen=True)
class Series:
    """A line of the chart: which one it is, and its points. `is_partial`: it was not measured in each dump."""

    kind: str
    points: List[Point]
    is_partial: bool = False

    @property
    def numbers(self) -> List[int]:
        """What is at its points."""
        return [point.number for point in self.points]


def sampled(items: Sequence[Spaced]) -> List[Spaced]:
    """Returns `items`, or evenly chosen ones if they are too many, the first and the last among them."""
    last = len(items) - 1
    if last < MOST_POINTS:
        return list(items)
    return [items[round(number * last / (MOST_POINTS - 1))] for number in range(MOST_POINTS)]


def time_places(dumps: Sequence[DumpEntry]) -> List[float]:
    """Returns the places of the dumps between 0 and 1: by their times if these rise, else evenly."""
    times = [dump.time for dump in dumps if dump.time is not None]
    if len(times) == len(dumps) and all(before < after for before, after in zip(times, times[1:])):
        return [(time - times[0]) / max(1, times[-1] - times[0]) for time in times]
    return [number / max(1, len(dumps) - 1) for number in range(len(dumps))]


def points_of(amounts: Dict[int, Amount], places: Sequence[float], unit: Unit) -> List[Point]:
    """Returns the points of amounts, which are by the numbers of their dumps."""
    return [Point(number, places[number], unit.of(amounts[number])) for number in sorted(amounts)]


def held_line(leak: Leak, places: Sequence[float]) -> Series:
    """Returns the line of what the first holder holds: in the first dump and the last, and in those between in which
    that was measured."""
    first, last = leak.holders[0], len(leak.dumps) - 1
    points = points_of({0: first.before.amount, **first.between, last: first.after.amount}, places, leak.by)
    return Series(HELD, points, is_partial=len(points) < len(leak.dumps))


def series_of(leak: Leak, places: Sequence[float]) -> List[Series]:
    """Returns the lines of the chart: what is reachable, what is held by the first holder, and what is unreachable if
    that is much."""
    reachable = points_of({number: dump.reachable for number, dump in enumerate(leak.dumps)}, places, leak.by)
    unreachable = points_of({number: dump.unreachable for number, dump in enumerate(leak.dumps)}, places, leak.by)
    found = [Series(REACHABLE, sampled(reachable))]
    if leak.holders and leak.is_of_all:
        found.append(held_line(leak, places))
    if max(it.number for it in unreachable) > DRAWN_UNREACHABLE * max(it.number for it in reachable):
        found.append(Series(UNREACHABLE, sampled(unreachable)))
    return found


def description_of(lines: Sequence[Series], leak: Leak, limits: Limits) -> str:
    """Returns the chart in words, a sentence for each line."""
    sentences = []
    for series in lines:
        texts = (f"{full(point.number, leak.by)} in dump {point.dump + 1}" for point in series.points)
        sentences.append(f"{line_words(series, leak, limits)}: {', '.join(texts)}.")
    return " ".join(sentences)


def line_words(series: Series, leak: Leak, limits: Limits) -> str:
    """Returns what a line is, in words with a capital."""
    if series.kind == HELD:
        return f"Held by {names_in_words(leak.holders[0].fields, limits.name)}"
    return f"{series.kind.capitalize()} {leak.by.value}"


def legend_order(lines: Sequence[Series]) -> List[Series]:
    """Returns the lines in the order of the legend: what is held is the last, since its text is the longest."""
    return sorted(lines, key=lambda series: series.kind == HELD)
