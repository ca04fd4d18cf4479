"""What a heap is made of: the parts of it that something is known to hold, then all else by package, and of both the
classes; and the rectangles of its picture."""

import functools
from collections import defaultdict
from dataclasses import dataclass, field
from typing import DefaultDict, Dict, Iterable, Iterator, List, Mapping, Optional, Sequence, Union

from heap_tools import class_names
from heap_tools.page.model import FieldEntry, ShareEntry
from heap_tools.page.names import in_java
from heap_tools.reports import Amount, Row

#: How many parts of a package's name make a group.
DEPTH = 3
#: How many parts are shown in what a line holds. Parts of these are not: their boxes would be too small.
WITHIN = 3
#: A package, a class or what a field holds of less than this part of the heap is added to others: its box would have no
#: room for a name.
SMALL = 1 / 100


@dataclass(frozen=True)
class Part:
    """A class of a group, or several small ones: then `name` is None and `classes` their number."""

    name: Optional[str]
    classes: int
    amount: Amount


@dataclass(frozen=True)
class Group:
    """The classes of a package, or of what `fields` hold, and groups within these, each the largest first. `name` is
    that of the package, None if it is all smaller packages. `is_own`: the classes of a package are those of the program
    and of its libraries."""

    name: Optional[str]
    parts: List[Part]
    is_own: bool = False
    fields: List[FieldEntry] = field(default_factory=list)
    groups: List["Group"] = field(default_factory=list)

    @property
    def amount(self) -> Amount:
        """The objects and bytes of all that is in it."""
        return total_of(each.amount for each in self.every())

    def every(self) -> List[Union[Part, "Group"]]:
        """Returns its parts and groups."""
        return [*self.parts, *self.groups]

    def children(self) -> List[Union[Part, "Group"]]:
        """Returns its parts and groups that have bytes, the largest first."""
        return sorted((each for each in self.every() if each.amount.bytes > 0), key=lambda each: -each.amount.bytes)


@dataclass(frozen=True)
class Most:
    """How many groups and parts of a group there are at most, and of which size on they are by themselves."""

    groups: int
    parts: int
    least: float


@dataclass(frozen=True)
class Box:
    """A rectangle."""

    x: float
    y: float
    width: float
    height: float

    def below(self, head: float) -> "Box":
        """Returns the box without a `head`."""
        return Box(self.x, self.y + head, self.width, max(0, self.height - head))


def total_of(amounts: Iterable[Amount]) -> Amount:
    """Returns the sum of amounts."""
    return functools.reduce(Amount.plus, amounts, Amount())


def package_of(name: str) -> str:
    """Returns the group of a class: the first parts of its package, or a name for classes without one."""
    package = class_names.package(name)
    if package:
        return "/".join(package.split("/")[:DEPTH])
    if class_names.is_array(class_names.element(name)):
        return "arrays of numbers"
    return "classes" if name == class_names.CLASSES else "no package"


def short_name(name: str) -> str:
    """Returns the name of a class without its package, as Java spells it."""
    return in_java(name).rpartition("/")[2]


def part_of(classes: Sequence[Row]) -> Part:
    """Returns classes with their amounts as one part."""
    name = classes[0].name if len(classes) == 1 else None
    return Part(name, len(classes), total_of(each.amount for each in classes))


def number_alone(sizes: Sequence[int], most: int, least: float) -> int:
    """Returns how many of `sizes`, the largest first, are shown alone, so that with all others as one there are at most
    `most`. Those below `least` are not, unless it is a single one."""
    large = sum(size >= least for size in sizes)
    return len(sizes) if len(sizes) <= min(most, large + 1) else min(most - 1, large)


def parts_of(classes: Iterable[Row], most: Most) -> List[Part]:
    """Returns the parts of `classes`. The last holds the others."""
    classes = sorted(classes, key=lambda it: (-it.amount.bytes, -it.amount.objects, it.name))
    number = number_alone([each.amount.bytes for each in classes], most.parts, most.least)
    return [part_of([it]) for it in classes[:number]] + ([part_of(classes[number:])] if classes[number:] else [])


def rows_of(classes: Mapping[str, Amount]) -> Iterator[Row]:
    """Returns classes with their amounts as rows."""
    return (Row(name, amount) for name, amount in classes.items())


def every_class(share: ShareEntry) -> Iterator[Row]:
    """Yields the classes of what something holds, with those of its parts: a class that is in several parts comes
    several times."""
    yield from rows_of(share.classes)
    for part in share.parts:
        yield from every_class(part)


def size_of(share: ShareEntry) -> int:
    """Returns the bytes of what something holds."""
    return sum(each.amount.bytes for each in every_class(share))


def shown_shares(shares: Sequence[ShareEntry], number: int, least: float) -> List[ShareEntry]:
    """Returns the shares that are shown by themselves, at most `number`, the largest first."""
    large = [each for each in shares if size_of(each) >= max(1, least)]
    return sorted(large, key=size_of, reverse=True)[:number]


def rest_of(classes: Mapping[str, Amount], shares: Iterable[ShareEntry]) -> Dict[str, Amount]:
    """Returns what of `classes` none of `shares` has."""
    rest = dict(classes)
    for share in shares:
        for row in every_class(share):
            left = rest.pop(row.name, Amount()).minus(row.amount)
            if left.objects > 0:
                rest[row.name] = Amount(left.objects, max(0, left.bytes))
    return rest


def group_of(share: ShareEntry, most: Most, within: int = WITHIN) -> Group:
    """Returns what something holds as a group, with at most `within` groups in it. The classes of all other parts are
    among its own."""
    shown = shown_shares(share.parts, within, most.least)
    classes = dict(share.classes)
    for part in share.parts:
        for row in every_class(part) if part not in shown else ():
            classes[row.name] = classes.get(row.name, Amount()).plus(row.amount)
    groups = [group_of(part, most, within=0) for part in shown]
    return Group(None, parts_of(rows_of(classes), most), fields=share.fields, groups=groups)


def groups_of(
    classes: Mapping[str, Amount], most_groups: int, most_parts: int, shares: Sequence[ShareEntry] = ()
) -> List[Group]:
    """Returns the classes of a report, with their amounts, in groups: first those that are known to be held by
    something, if there are `shares`, then all else by package; of both the largest first. Small packages are one group
    at the end."""
    most = Most(most_groups, most_parts, SMALL * total_of(classes.values()).bytes)
    shown = shown_shares(shares, most.groups, most.least)
    return [group_of(share, most) for share in shown] + packages_of(rest_of(classes, shown), most)


def packages_of(classes: Mapping[str, Amount], most: Most) -> List[Group]:
    """Returns classes by package, the largest first. Small packages are one group at the end."""
    packages: DefaultDict[str, List[Row]] = defaultdict(list)
    for row in rows_of(classes):
        packages[package_of(row.name)].append(row)
    sizes = {name: total_of(each.amount for each in packages[name]).bytes for name in packages}
    order = sorted(packages, key=lambda name: (-sizes[name], name))
    number = number_alone([sizes[name] for name in order], most.groups, most.least)
    groups = []
    for name in order[:number]:
        is_own = any(class_names.is_own(each.name) for each in packages[name])
        groups.append(Group(name, parts_of(packages[name], most), is_own))
    rest = [it for name in order[number:] for it in packages[name]]
    return groups + ([Group(None, parts_of(rest, most))] if rest else [])


def worst_ratio(areas: Sequence[float], side: float) -> float:
    """Returns the ratio of the sides of the longest rectangle, if rectangles of `areas` fill a strip along `side`."""
    thickness = sum(areas) / side
    return max(max(thickness / (area / thickness), (area / thickness) / thickness) for area in areas)


def strip_length(areas: Sequence[float], side: float) -> int:
    """Returns how many of `areas` belong in the next strip: more, as long as the rectangles become more square."""
    number = 1
    while number < len(areas) and worst_ratio(areas[: number + 1], side) <= worst_ratio(areas[:number], side):
        number += 1
    return number


def boxes_of(weights: Sequence[float], box: Box) -> List[Box]:
    """Returns a box within `box` for each of `weights`, which are positive, the largest first. It is the squarified
    layout of Bruls, Huizing and van Wijk."""
    scale = box.width * box.height / max(1, sum(weights))
    boxes: List[Box] = []
    areas = [weight * scale for weight in weights]
    while areas and min(box.width, box.height) > 0:
        side = min(box.width, box.height)
        number = strip_length(areas, side)
        strip, areas = areas[:number], areas[number:]
        thickness, at = sum(strip) / side, 0.0
        for area in strip:
            length = area / thickness
            if box.width >= box.height:
                boxes.append(Box(box.x, box.y + at, thickness, length))
            else:
                boxes.append(Box(box.x + at, box.y, length, thickness))
            at += length
        if box.width >= box.height:
            box = Box(box.x + thickness, box.y, box.width - thickness, box.height)
        else:
            box = Box(box.x, box.y + thickness, box.width, box.height - thickness)
    return boxes
