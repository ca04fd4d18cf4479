"""What a virtual machine adds to the objects of some classes, which no dump shows.

It adds fields of its own to some classes of the JDK, and room around fields that several threads write. Objects with
such an addition are never as near to the next as their fields say. But so may be objects after each of which something
lay that the dump does not have: an addition counts only if it cannot be that.

In the old space of CMS, up to JDK 13, no object takes less than three words, though a smaller one has its own size.
"""

from collections import Counter, defaultdict
from typing import Counter as Counts
from typing import Container, Dict, Iterator, List, Sequence, Set, Tuple

from heap_tools.field_placing import WORD, Fields
from heap_tools.heap_dump import HeapDump
from heap_tools.heap_holes import Seen, holes_in, is_room
from heap_tools.heap_layout import MAJORITY, OVERLAPPING, Layout
from heap_tools.heap_sample import CLASS_OBJECT, WITH_ADDED_FIELDS, WITH_ROOM, Sample

#: How many objects show an addition of which each could be the hole that an object left, if more than half of those of
#: the class agree. In the order of references there are holes after garbage, and elsewhere there may be many: then no
#: number of objects shows it, since all may have left the same.
MANY_ADDED = 4
#: The bytes that the smallest object takes in the old space of CMS, and the number of classes of smaller objects that
#: show such a space.
SMALLEST_OF_CMS, SOME_SMALL = 24, 2
#: The number of objects that show what is added to a class of `WITH_ADDED_FIELDS`: of garbage there may be a hole of
#: any size after some objects of a class.
SOME_ADDED = 2
#: The classes to which OpenJDK adds one word, from JDK 11 on: if no object shows how much it is, it is that.
WITH_A_WORD = frozenset(
    f"java/lang/{name}" for name in ("ClassLoader", "Module", "invoke/MemberName", "invoke/ResolvedMethodName")
)


def added_fields(
    dump: HeapDump, sample: Sample, fields: Dict[int, Fields], layout: Layout, stacks: Container[int] = ()
) -> Dict[int, int]:
    """Returns how many bytes the virtual machine adds to the objects of each class, inherited ones included. Classes to
    which it adds none are omitted, and so are `stacks`, whose objects have no common size."""
    return dict(_Additions(dump, sample, fields, layout, stacks).found())


class _Additions:
    """The search for additions, from superclasses down: what all objects of a class and its subclasses have belongs to
    the class."""

    def __init__(
        self, dump: HeapDump, sample: Sample, fields: Dict[int, Fields], layout: Layout, stacks: Container[int]
    ) -> None:
        self.dump, self.layout, self.is_ascending = dump, layout, sample.is_ascending
        self.seen: Dict[int, List[Seen]] = defaultdict(list)
        self.below: Dict[int, List[int]] = defaultdict(list)
        every = [
            Seen(class_id, layout.instance(fields.get(class_id, Fields())), gap, count)
            for (class_id, kind, _, gap), count in sample.neighbours.items()
            if kind == 0 and class_id not in stacks
        ]
        if self._is_cms(every):
            every = [self._without_rest(each) for each in every]
        self.holes = holes_in(sample, (each for each in every if not self._is_special(each.class_id)), layout)
        for one in every:
            for class_id in self.dump.lineage(one.class_id):
                self.seen[class_id].append(one)
        for class_id, each in dump.classes.items():
            self.below[each.superclass].append(class_id)

    def _is_small(self, one: Seen) -> bool:
        """Tests whether objects are smaller than the smallest of CMS, and as far from the next as that is long."""
        return self.layout.aligned(one.plain) < SMALLEST_OF_CMS == one.gap

    def _without_rest(self, one: Seen) -> Seen:
        """Returns objects in an old space of CMS, without what it leaves after small ones."""
        is_small = self._is_small(one) and not self._is_added_to(one.class_id)
        return one._replace(gap=self.layout.aligned(one.plain)) if is_small else one

    def _is_cms(self, every: Sequence[Seen]) -> bool:
        """Tests whether objects are in an old space of CMS. Classes of smaller objects show it if all of these take as
        much as its smallest, and it is no addition: nothing is added to them, and there is no hole between fields."""
        plain = (it for it in every if self._has_own_fields(it.class_id) and not self._is_added_to(it.class_id))
        small: Set[int] = set()
        others: Set[int] = set()
        for one in plain:
            (small if self._is_small(one) else others).add(one.class_id)
        return len(small - others) >= SOME_SMALL

    def _is_added_to(self, class_id: int) -> bool:
        """Tests whether the virtual machine adds fields to a class, or to one that it inherits from."""
        return any(self.dump.names[each] in WITH_ADDED_FIELDS for each in self.dump.lineage(class_id))

    def _is_special(self, class_id: int) -> bool:
        """Tests whether a class or one that it inherits from is known to have additions."""
        return any(self.dump.names[each] in WITH_ADDED_FIELDS | WITH_ROOM for each in self.dump.lineage(class_id))

    def _has_own_fields(self, class_id: int) -> bool:
        """Tests whether the fields of a class, inherited ones too, are those of one class: then there is no hole
        between them."""
        every = (self.dump.classes[each].fields for each in self.dump.lineage(class_id))
        return sum(any(not field.is_static for field in fields) for fields in every) <= 1

    def found(self) -> Iterator[Tuple[int, int]]:
        """Yields the classes to which something is added, and how many bytes that is."""
        rest = [
            (class_id, 0) for class_id, each in self.dump.classes.items() if each.superclass not in self.dump.classes
        ]
        while rest:
            class_id, inherited = rest.pop()
            added = self._added(class_id, inherited)
            if added:
                yield class_id, added
            rest += [(each, added) for each in self.below[class_id]]

    def _added(self, class_id: int, inherited: int) -> int:
        """Returns how many bytes are added to the objects of a class, given how many to those of its superclass."""
        seen, aligned = self.seen.get(class_id, []), self.layout.aligned
        has_fields = self.dump.names[class_id] in WITH_ADDED_FIELDS
        word = self.dump.id_size if self.dump.names[class_id] in WITH_A_WORD else 0
        least = min((each.gap - aligned(each.plain + inherited) for each in seen), default=-1)
        if least < 0 or least == 0 and not has_fields:
            return max(inherited, word if not seen else 0)
        kinds = {each.class_id for each in seen}
        if not has_fields and class_id not in kinds and len(kinds) == 1:
            return inherited  # what one subclass shows is its own
        added, votes = _most_agreed(seen, self.layout.alignment)
        if least == 0:  # alignment hides it in some subclasses
            votes -= sum(each.objects for each in seen if each.gap == aligned(each.plain + inherited))
            return max(added, inherited) if votes >= SOME_ADDED else inherited
        is_shown = self._is_shown(class_id, least, added, votes)
        return added if added > inherited and is_shown else max(inherited, word)

    def _is_shown(self, class_id: int, least: int, added: int, votes: int) -> bool:
        """Tests whether `added` bytes, on which `votes` objects of a class agree, are an addition and no holes. Each
        object has at least `least` bytes more than its fields and what is inherited."""
        layout, name, seen = self.layout, self.dump.names[class_id], self.seen[class_id]
        has_fields, may_be_room = name in WITH_ADDED_FIELDS, is_room(least, layout.alignment)
        if least < layout.aligned(layout.header) or has_fields and least <= max(WORD, layout.alignment):
            return True
        if name in WITH_ROOM and may_be_room:
            return True
        is_most = votes > MAJORITY * sum(each.objects for each in seen)
        if has_fields and not is_most:  # there may be a hole after the objects of a subclass
            own = [each for each in seen if each.class_id == class_id]
            agree = sum(each.objects for each in own if each.gap == layout.aligned(each.plain + added))
            is_most = agree > MAJORITY * sum(each.objects for each in own)
        is_no_hole = self.is_ascending and self.holes.are_rare and votes >= MANY_ADDED
        is_room_seen = may_be_room and not self.holes.may_be_like_room(votes)
        return is_most and (has_fields and votes >= SOME_ADDED or is_no_hole or is_room_seen)


def _most_agreed(seen: List[Seen], alignment: int) -> Tuple[int, int]:
    """Returns the least number of added bytes that gives most objects the size that they have, and how many these are.
    No object is larger than it is far to the next."""
    ranges = [(each.gap - alignment + 1 - each.plain, each.gap - each.plain, each.objects) for each in seen]
    most = min(last for _, last, _ in ranges)
    votes = {low: sum(n for first, last, n in ranges if first <= low <= last) for low, _, _ in ranges if low <= most}
    return min(votes.items(), key=lambda it: (-it[1], it[0]))


def class_object_size(sample: Sample, statics: Dict[int, int], layout: Layout, plain: int) -> int:
    """Returns where the static fields begin in a class object, as most of these have it. `statics` are the bytes of the
    static fields of each class, `plain` those of the fields of `java/lang/Class`."""
    seen: Counts[Tuple[int, int]] = Counter()
    for (class_id, kind, _, gap), count in sample.neighbours.items():
        if kind == CLASS_OBJECT:
            seen[statics[class_id], gap] += count
    first = -(-plain // WORD) * WORD
    most = min((gap for _, gap in seen), default=first)
    return max(range(first, most + 1, WORD), key=lambda it: _fitting(it, seen, layout), default=first)


def _fitting(begin: int, seen: Counts[Tuple[int, int]], layout: Layout) -> int:
    """Returns how many class objects have the size that they have if static fields begin at `begin`. Returns less than
    nothing if more than a few would be larger than that."""
    sizes = [(layout.aligned(begin + bytes_of_statics), gap, n) for (bytes_of_statics, gap), n in seen.items()]
    larger = sum(n for size, gap, n in sizes if size > gap)
    return -larger if larger > OVERLAPPING * sum(seen.values()) else sum(n for size, gap, n in sizes if size == gap)
