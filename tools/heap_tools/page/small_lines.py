"""The small line of a class over the dumps."""

from typing import Iterable, Sequence, Tuple

from heap_tools.page.chart_lines import sampled
from heap_tools.page.templates import Html, fill
from heap_tools.page.words import full
from heap_tools.reports import Unit

#: The size of a small line.
SMALL_WIDTH, SMALL_HEIGHT = 120, 28


def lowest_and_highest(classes: Iterable[Sequence[int]]) -> Tuple[int, int]:
    """Returns by how much the numbers of any class are below its first one at most, and above it."""
    changes = [number - numbers[0] for numbers in classes for number in numbers]
    return min(changes), max(changes)


def small_line(places: Sequence[float], numbers: Sequence[int], scale: Tuple[int, int], unit: Unit) -> Html:
    """Returns the small line of a class over the dumps at `places`, which rises by what there was more than in the
    first dump. `scale`: by how much any class fell and rose at most."""
    lowest, highest = scale
    room, floor = SMALL_HEIGHT - 8, SMALL_HEIGHT - 4
    shown = []
    for place, value in sampled(list(zip(places, numbers))):
        part = (value - numbers[0] - lowest) / max(1, highest - lowest)
        shown.append((4 + place * (SMALL_WIDTH - 8), floor - part * room))
    x, y = shown[-1]
    first, last, most = (full(number, unit) for number in (numbers[0], numbers[-1], max(numbers)))
    return fill(
        "small_line",
        points=" ".join(f"{x:.1f},{y:.1f}" for x, y in shown),
        description=f"From {first} to {last}, at most {most}",
        width=SMALL_WIDTH,
        height=SMALL_HEIGHT,
        x=f"{x:.1f}",
        y=f"{y:.1f}",
        first=f"{shown[0][0]:.1f}",
        floor=floor,
    )
