"""The chart of the heap over the dumps, as SVG: `chart_lines.py` has its lines, `chart_labels.py` where texts are."""

import math
from dataclasses import dataclass
from typing import Dict, Iterable, List, NamedTuple, Sequence

from heap_tools.page.chart_labels import ASCENT, BESIDE, DESCENT, DIGIT, FEW_POINTS, Label, labels_between
from heap_tools.page.chart_labels import labels_of_ends, labels_of_times, points_with_number
from heap_tools.page.chart_lines import HELD, REACHABLE, UNREACHABLE, Point, Series, description_of, legend_order
from heap_tools.page.chart_lines import series_of, time_places
from heap_tools.page.model import DumpEntry, Leak, Limits
from heap_tools.page.names import names_of
from heap_tools.page.templates import Html, escaped, fill, joined
from heap_tools.page.words import bare, clock, moment
from heap_tools.reports import Unit


class ChartSize(NamedTuple):
    """A drawing of the chart: where it is shown, the least width that it has there, its height, whether the lines of
    its grid have numbers, and whether the name of a line is below the number of its end, not beside it."""

    kind: str
    width: float
    height: float
    has_axis: bool
    is_stacked: bool


#: The chart is drawn three times, for wide and for narrow screens and for paper. Places are parts of its width, and
#: only heights are in pixels: so texts are as large in a window of any width, and no closer than at the least one.
CHARTS = [
    ChartSize("wide", 540, 260, True, False),
    ChartSize("narrow", 300, 240, False, True),
    ChartSize("paper", 530, 150, True, False),
]
#: The room above and below the chart's lines, and beside the numbers of the axis.
TOP, BOTTOM, GAP = 26, 26, 10
#: The width of a letter, and the height of a text.
LETTER, TEXT_HEIGHT = 7.2, ASCENT + DESCENT
#: The width of the lines' own coordinates, which are stretched to the width of the chart.
STRETCHED = 1000


@dataclass(frozen=True)
class Scale:
    """How places and numbers become coordinates of a chart that has its least width. `left` and `right`: the room
    beside the lines."""

    size: ChartSize
    left: float
    right: float
    most: float

    @property
    def width(self) -> float:
        """The width of the lines."""
        return self.size.width - self.left - self.right

    @property
    def floor(self) -> float:
        """The coordinate of 0."""
        return self.y(0)

    def x(self, place: float) -> float:
        """Returns the coordinate of a place between 0 and 1."""
        return place * self.width

    def y(self, number: float) -> float:
        """Returns the coordinate of a number."""
        return self.size.height - BOTTOM - number / max(1, self.most) * (self.size.height - TOP - BOTTOM)

    def part(self, x: float) -> str:
        """Returns a coordinate as a part of the width."""
        return f"{100 * x / self.width:.2f}%"


def step_of(most: int) -> float:
    """Returns the step between the lines of a grid up to `most`: 1, 2, 2.5 or 5 times a power of ten, so that there are
    few."""
    power: float = 10 ** max(0, math.floor(math.log10(max(1, most))) - 1)
    return next(factor * power for factor in (1, 2, 2.5, 5, 10, 20, 25, 50) if most / (factor * power) <= 4.5)


def grid_numbers(most: int) -> List[int]:
    """Returns the numbers of the lines across the chart."""
    step = step_of(most)
    return [int(number * step) for number in range(int(most // step) + 1)]


def scale_of(lines: Sequence[Series], grid: Sequence[int], size: ChartSize, unit: Unit) -> Scale:
    """Returns the scale of a drawing, with as much room beside the lines as their texts need."""
    first = max(len(bare(series.numbers[0], unit)) for series in lines)
    axis = GAP + LETTER * max(len(bare(number, unit)) for number in grid) if size.has_axis else 0
    right = max(width_of_end(series, size, unit) for series in lines)
    most = max(number for series in lines for number in series.numbers)
    return Scale(size, math.ceil(BESIDE + DIGIT * first + axis), math.ceil(BESIDE + right), most)


def width_of_end(series: Series, size: ChartSize, unit: Unit) -> float:
    """Returns the width of what is beside the end of a line: its last number, and its name."""
    number, name = DIGIT * len(bare(series.numbers[-1], unit)), LETTER * len(series.kind)
    return max(number, name) if size.is_stacked else number + LETTER + name


def grid_of(scale: Scale, numbers: Iterable[int], unit: Unit) -> Html:
    """Returns the lines across the chart with their numbers, or only that of 0."""
    if not scale.size.has_axis:
        return fill("grid", y=f"{scale.floor:.1f}", left=0, number=Html())
    axis, lines = GAP + LETTER * max(len(bare(number, unit)) for number in numbers), []
    for number in numbers:
        at = {"y": f"{scale.y(number):.1f}", "left": f"{axis - scale.left:.1f}"}
        text = fill("grid_number", text=bare(number, unit), x=f"{axis - scale.left - GAP:.1f}", y=at["y"])
        lines.append(fill("grid", number=text, **at))
    return joined(lines)


def line_of(series: Series, scale: Scale) -> Html:
    """Returns a line of the chart, in coordinates that are stretched. Only what is reachable is an area."""
    texts = [f"{STRETCHED * point.place:.1f},{scale.y(point.number):.1f}" for point in series.points]
    area = Html()
    if series.kind == REACHABLE:
        area = fill("area", points=f"0,{scale.floor:.1f} {' '.join(texts)} {STRETCHED},{scale.floor:.1f}")
    return fill("series", kind=style_of(series), area=area, points=" ".join(texts))


def style_of(series: Series) -> str:
    """Returns the classes of style of a line."""
    return f"{series.kind} partial" if series.is_partial else series.kind


def dots_of(series: Series, scale: Scale) -> Html:
    """Returns the dots of a line, which are of a form that no other line has: at all points if they are few, else at
    its ends."""
    points = series.points if len(series.points) <= 2 * FEW_POINTS else [series.points[0], series.points[-1]]
    dots = (dot(series.kind, f"{100 * point.place:.2f}%", scale.y(point.number)) for point in points)
    return fill("dots", kind=series.kind, dots=joined(dots))


def dot(kind: str, x: str, y: float) -> Html:
    """Returns a dot: of what is held a square, of all else a circle, which is hollow for what is unreachable."""
    return fill("square" if kind == HELD else "circle", x=x, y=f"{y:.1f}")


def labels_of(lines: Sequence[Series], scale: Scale, unit: Unit) -> Html:
    """Returns the numbers at the points of the lines, and their names at the end."""
    points = [[(scale.x(point.place), scale.y(point.number)) for point in series.points] for series in lines]
    texts = [numbers_of(series.points, unit) for series in lines]
    gap = 2 * TEXT_HEIGHT if scale.size.is_stacked else TEXT_HEIGHT
    ends = labels_of_ends(points, texts, gap, ASCENT + 2, scale.floor)
    between = labels_between(points, texts, ends, scale.floor)
    shown = [label_of(label, lines[label.line], scale) for label in [*ends[: len(lines)], *between]]
    for label, series in zip(ends[len(lines) :], lines):
        shown.append(label_of(label, series, scale, name_of_line(label, series, scale)))
    return joined(shown)


def numbers_of(points: Sequence[Point], unit: Unit) -> List[str]:
    """Returns the numbers of points as texts, empty for those that are to have none."""
    wanted = {0, len(points) - 1, *points_with_number([point.number for point in points])}
    return [bare(point.number, unit) if at in wanted else "" for at, point in enumerate(points)]


def label_of(label: Label, series: Series, scale: Scale, name: Html = Html()) -> Html:
    """Returns a number of a line, with a name if it is the last one."""
    return fill("chart_label", kind=series.kind, text=label.text, name=name, **place_of_text(label, scale))


def place_of_text(label: Label, scale: Scale) -> Dict[str, str]:
    """Returns the place of a text as the attributes of an element."""
    places = {"x": scale.part(label.x), "y": f"{label.y:.1f}", "shift": f"{label.shift:.1f}"}
    return {**places, "anchor": label.anchor}


def name_of_line(label: Label, series: Series, scale: Scale) -> Html:
    """Returns the name of a line, beside its last number or below it."""
    if not scale.size.is_stacked:
        return fill("name_beside", text=series.kind)
    return fill("name_below", text=series.kind, x=scale.part(label.x), shift=f"{label.shift:.1f}", height=TEXT_HEIGHT)


def ticks_of(places: Sequence[float], texts: Sequence[str], scale: Scale) -> Html:
    """Returns the times below the chart for which there is room."""
    xs, edges = [scale.x(place) for place in places], (-scale.left, scale.width + scale.right)
    shown = []
    for label in labels_of_times(xs, texts, scale.size.height - 6, edges):
        shown.append(fill("tick", text=label.text, **place_of_text(label, scale)))
    return joined(shown)


def times_of(dumps: Sequence[DumpEntry]) -> List[str]:
    """Returns the times of the dumps as they are below the chart: the last one says that they are in UTC."""
    texts = clock([dump.time for dump in dumps])
    return [*texts[:-1], f"{texts[-1]} UTC"] if moment(dumps[-1].time) else texts


def legend(lines: Sequence[Series], leak: Leak, limits: Limits) -> Html:
    """Returns what the lines of the chart are, each with a piece of it."""
    texts: Dict[str, Html] = {kind: escaped(f"{kind} {leak.by.value}") for kind in (REACHABLE, UNREACHABLE)}
    if leak.holders:
        ends = ", measured at the dots" if any(series.is_partial for series in lines) else ""
        texts[HELD] = joined(["held by ", names_of(leak.holders[0].fields, limits), ends])
    keys = []
    for series in legend_order(lines):
        sample = fill("sample", kind=style_of(series), of=series.kind, dot=dot(series.kind, "50%", 6))
        keys.append(fill("legend", kind=series.kind, sample=sample, text=texts[series.kind]))
    return joined(keys, "\n")


def chart(leak: Leak, limits: Limits) -> Html:
    """Returns the chart of the heap over the dumps, for each width, with its legend."""
    places, texts = time_places(leak.dumps), times_of(leak.dumps)
    lines = series_of(leak, places)
    grid = grid_numbers(max(number for series in lines for number in series.numbers))
    about = {"description": description_of(lines, leak, limits)}
    pictures = []
    for size in CHARTS:
        scale = scale_of(lines, grid, size, leak.by)
        parts: Dict[str, object] = {
            "grid": grid_of(scale, grid, leak.by),
            "lines": joined(line_of(series, scale) for series in lines),
            "dots": joined(dots_of(series, scale) for series in lines),
            "labels": labels_of(lines, scale, leak.by),
            "ticks": ticks_of(places, texts, scale),
        }
        room = {"left": scale.left, "right": scale.right, "stretched": STRETCHED}
        pictures.append(fill("chart", kind=size.kind, height=size.height, **room, **about, **parts))
    return fill("figure_of", picture=joined(pictures, "\n"), caption=legend(lines, leak, limits))
