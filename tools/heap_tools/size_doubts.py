"""Of which classes it is not sure what their objects take in the heap.

It is sure of a class if an object has a neighbour that is as far as it is long. Else there may be an addition to the
class between, or a hole; it may be shorter, if its neighbour is nearer; and if no object has a neighbour, its fields
may be placed in another way than the others show, unless these refute that.
"""

from collections import Counter, defaultdict
from typing import Callable, Container, Dict, List

from heap_tools.field_placing import Fields, Placing
from heap_tools.heap_layout import Layout
from heap_tools.heap_sample import Sample

#: How many objects show how fields are placed, and of which part of those that are as long as one of two placings says
#: they are most: after others may be a hole as long as the two differ.
SHOWING, MOST_SHOWING = 4, 0.8


def doubts(
    sample: Sample, fields: Dict[int, Fields], layout: Layout, stacks: Container[int], size: Callable[[int], int]
) -> Dict[int, int]:
    """Returns by how many bytes each object of a class may be longer or shorter than `size` says, without the classes
    of which it is sure, and without `stacks`, whose objects have no common size. What is smaller than any object is no
    hole: in the old space of CMS small objects take more than their size."""
    gaps: Dict[int, List[int]] = defaultdict(list)
    for class_id, kind, _, gap in sample.neighbours:
        if kind == 0:
            gaps[class_id].append(gap)
    rivals = _rivals(sample, fields, layout)
    found: Dict[int, int] = {}
    for class_id in fields:
        if class_id in gaps:
            beyond = min(gaps[class_id]) - size(class_id)
            found[class_id] = beyond if beyond >= layout.aligned(layout.header) else max(0, -beyond)
        else:
            found[class_id] = max((_difference(layout, each, fields[class_id]) for each in rivals), default=0)
    return {class_id: off for class_id, off in found.items() if off and class_id not in stacks}


def _difference(one: Layout, other: Layout, fields: Fields) -> int:
    """Returns by how many bytes the sizes of an instance with these fields differ in two layouts."""
    return abs(one.aligned(one.instance(fields)) - other.aligned(other.instance(fields)))


def _rivals(sample: Sample, fields: Dict[int, Fields], layout: Layout) -> List[Layout]:
    """Returns the layouts that place fields in another way than `layout`, and that the sample does not refute."""
    others = [layout._replace(placing=each) for each in Placing if each is not layout.placing]
    return [each for each in others if not _refutes(sample, fields, layout, each)]


def _refutes(sample: Sample, fields: Dict[int, Fields], layout: Layout, other: Layout) -> bool:
    """Tests whether a sample shows that instances are as long as `layout` says, and not as `other` does."""
    votes = Counter({layout: 0, other: 0})
    for (class_id, kind, _, gap), count in sample.neighbours.items():
        if kind == 0 and _difference(layout, other, fields.get(class_id, Fields())):
            for each in (layout, other):
                votes[each] += count * (each.aligned(each.instance(fields[class_id])) == gap)
    return votes[layout] >= max(SHOWING, MOST_SHOWING * sum(votes.values()))
