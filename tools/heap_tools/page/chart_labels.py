"""Where the texts of a chart are: the numbers of the ends of lines beside these, those between the ends next to their
points, clear of the lines and of each other, and the times below."""

from dataclasses import dataclass
from typing import Iterable, List, Sequence, Tuple

#: The width of a digit in bold, and the height of a text above and below its foot.
DIGIT, ASCENT, DESCENT = 7.8, 10.0, 3.0
#: Where the foot of a number is: above its point, or below it, farther if the line itself is there.
ABOVE, BELOW, FAR_BELOW = -9.0, 17.0, 28.0
#: How far the texts are from the axis at least: that of a number near zero would be on it.
CLEAR = 8.0
#: How many points of a line are few: of these each has a number, as far as there is room.
FEW_POINTS = 8
#: How far the number of an end is from its point, and how far below the point its foot is.
BESIDE, MIDDLE = 10.0, 4.0

#: A point of the picture.
At = Tuple[float, float]


@dataclass(frozen=True)
class Label:
    """A text of the chart: its foot, which end of it is there, and the number of the line that it is of. It is `shift`
    to the right of the point at `x`."""

    line: int
    text: str
    x: float
    y: float
    anchor: str
    shift: float = 0.0

    @property
    def left(self) -> float:
        """Where the text begins."""
        part = {"start": 0.0, "middle": 0.5, "end": 1.0}[self.anchor]
        return self.x + self.shift - part * DIGIT * len(self.text)

    @property
    def right(self) -> float:
        """Where the text ends."""
        return self.left + DIGIT * len(self.text)

    def is_clear_of(self, other: "Label") -> bool:
        """Tests whether the texts of both are apart."""
        is_beside = self.right + DIGIT <= other.left or other.right + DIGIT <= self.left
        return is_beside or abs(self.y - other.y) >= ASCENT + DESCENT

    def is_crossed_by(self, points: Sequence[At]) -> bool:
        """Tests whether a line through `points`, from left to right, crosses the text."""
        for (x, y), (end, y_end) in zip(points, points[1:]):
            left, right = max(self.left, x), min(self.right, end)
            if left > right:
                continue
            rise = (y_end - y) / (end - x) if end > x else 0.0
            ends = y + rise * (left - x), y + rise * (right - x)
            if min(ends) <= self.y + DESCENT and max(ends) >= self.y - ASCENT:
                return True
        return False


def moved_apart(heights: Sequence[float], gap: float, least: float, most: float) -> List[float]:
    """Returns places for texts that are to be at `heights`: as near to these as can be, in the same order, at least
    `gap` apart, and between `least` and `most`, if there is room."""
    order = sorted(range(len(heights)), key=lambda number: heights[number])
    groups: List[List[float]] = []
    for place, number in enumerate(order):
        groups.append([heights[number] - gap * place])
        while len(groups) > 1 and mean(groups[-2]) > mean(groups[-1]):
            groups[-2:] = [groups[-2] + groups[-1]]
    shifts = [mean(group) for group in groups for _ in group]
    last, found = len(order) - 1, list(heights)
    for place, (number, shift) in enumerate(zip(order, shifts)):
        found[number] = min(max(shift + gap * place, least + gap * place), most - gap * (last - place))
    return found


def mean(numbers: Sequence[float]) -> float:
    """Returns the mean of numbers."""
    return sum(numbers) / len(numbers)


def labels_of_ends(
    lines: Sequence[Sequence[At]], texts: Sequence[Sequence[str]], gap: float, top: float, floor: float
) -> List[Label]:
    """Returns the numbers of the first points of lines, then of the last ones, each beside its point, where no line is:
    all lines begin at one time and end at one. A text that has the place of another one is moved up or down, so none is
    lost. `gap`: how far apart the last ones are, which may have a second line."""
    found: List[Label] = []
    for at, anchor, shift, apart in ((0, "end", -BESIDE, ASCENT + DESCENT), (-1, "start", BESIDE, gap)):
        wanted = [points[at][1] + MIDDLE for points in lines]
        heights = moved_apart(wanted, apart, top, floor + MIDDLE - (apart - ASCENT - DESCENT))
        for line, (points, height) in enumerate(zip(lines, heights)):
            found.append(Label(line, texts[line][at], points[at][0], height, anchor, shift))
    return found


def points_with_number(values: Sequence[int]) -> Iterable[int]:
    """Returns which points of a line between its ends are to have a number: all of few, of many the highest."""
    last = len(values) - 1
    return range(1, last) if last < FEW_POINTS else [values.index(max(values))]


def labels_between(
    lines: Sequence[Sequence[At]], texts: Sequence[Sequence[str]], ends: Sequence[Label], floor: float
) -> List[Label]:
    """Returns the numbers between the `ends` of lines for which there is room above or below their points, or at a side
    from which the line does not come. `texts` are those of each point, empty where none is to be. None is below
    `floor`."""
    found = list(ends)
    for line, points in enumerate(lines):
        for number in range(1, len(points) - 1):
            text, (x, y) = texts[line][number], points[number]
            places = ((shift, anchor) for shift in (ABOVE, BELOW, FAR_BELOW) for anchor in ("middle", "end", "start"))
            labels = (Label(line, text, x, y + shift, anchor) for shift, anchor in places)
            free = (label for label in labels if text and is_free(label, lines, found, floor))
            found += list(free)[:1]
    return found[len(ends) :]


def is_free(label: Label, lines: Sequence[Sequence[At]], others: Sequence[Label], floor: float) -> bool:
    """Tests whether a text is above `floor`, between the ends of the lines, and clear of these and of other texts."""
    is_clear = all(label.is_clear_of(other) for other in others)
    is_between = lines[0][0][0] <= label.left and label.right <= lines[0][-1][0]
    is_above = label.y + DESCENT < floor - CLEAR
    return is_clear and is_between and is_above and not any(label.is_crossed_by(points) for points in lines)


def labels_of_times(xs: Sequence[float], texts: Sequence[str], y: float, edges: Tuple[float, float]) -> List[Label]:
    """Returns the times below the chart for which there is room: the last, the first, then those between. Each is in
    the middle below its point, or at an edge of the picture if it has no room there."""
    last = len(xs) - 1
    found: List[Label] = []
    for number in dict.fromkeys([last, 0, *range(1, last)]):
        places = [("middle", 0.0)]
        if number in (0, last):
            places.append(("end", edges[1] - xs[number]) if number == last else ("start", edges[0] - xs[number]))
        labels = (Label(0, texts[number], xs[number], y, anchor, shift) for anchor, shift in places)
        free = [it for it in labels if is_within(it, edges) and all(it.is_clear_of(other) for other in found)]
        found += free[:1]
    return found


def is_within(label: Label, edges: Tuple[float, float]) -> bool:
    """Tests whether a text is between two edges."""
    return edges[0] <= label.left + 0.1 and label.right - 0.1 <= edges[1]
