"""How often there is a hole after an object: garbage was there, or something that the dump lacks.

What all objects of a class have between their fields and the next object may be such a hole, or an addition to the
class. How often holes are after objects whose size is known says which.
"""

from collections import defaultdict
from typing import Dict, Iterable, List, NamedTuple

from heap_tools.heap_layout import Layout
from heap_tools.heap_sample import Sample

#: The room that is left before, between and after fields that several threads write, and how often a class may have it.
ROOM, MOST_ROOMS = 128, 4
#: Less of such classes than this are to be expected where holes are rare.
EXPECTED = 0.1


class Seen(NamedTuple):
    """Objects of a class: the bytes of each by its fields, not aligned, how far it is to the next, and how many they
    are."""

    class_id: int
    plain: int
    gap: int
    objects: int


class Holes(NamedTuple):
    """Of how many objects the size is known, after how many of them there is a hole, and after how many one that is as
    long as the room around fields; and of how many classes no object has the size that fields say."""

    known: int
    all: int
    like_room: int
    classes: int

    @property
    def are_rare(self) -> bool:
        """Tests whether hardly any of the classes is to be expected to have a hole after an object."""
        return self._expected(self.all, 1) < EXPECTED

    def may_be_like_room(self, objects: int) -> bool:
        """Tests whether one of the classes may have a hole as long as the room around fields after each of `objects`
        objects."""
        return self._expected(self.like_room, objects) >= EXPECTED

    def _expected(self, holes: int, objects: int) -> float:
        """Returns how many of the classes have such a hole after each of `objects` objects if it is there by chance.
        One hole more than were seen is taken, since few objects may be known."""
        return self.classes * ((holes + 1) / (self.known + 1)) ** objects


def is_room(added: int, alignment: int) -> bool:
    """Tests whether `added` bytes are the room that is left around fields, but for what alignment adds."""
    return ROOM <= added < (MOST_ROOMS + 1) * ROOM and added % ROOM <= 2 * alignment


def holes_in(sample: Sample, every: Iterable[Seen], layout: Layout) -> Holes:
    """Returns how often there are holes in a sample. The size of an array is known, and so is that of an instance if
    some of its class, given by `every`, are as long as their fields say."""
    by_class: Dict[int, List[Seen]] = defaultdict(list)
    for each in every:
        by_class[each.class_id].append(each)
    arrays = ((each, n) for each, n in sample.neighbours.items() if each.kind > 0)
    sizes = [(each.gap - layout.array(each.kind, each.length), n) for each, n in arrays]
    unknown = 0
    for some in by_class.values():
        beyond = [(each.gap - layout.aligned(each.plain), each.objects) for each in some]
        if any(more == 0 for more, _ in beyond):
            sizes += beyond
        else:
            unknown += 1
    return Holes(
        sum(n for _, n in sizes),
        sum(n for more, n in sizes if more > 0),
        sum(n for more, n in sizes if is_room(more, layout.alignment)),
        unknown,
    )
