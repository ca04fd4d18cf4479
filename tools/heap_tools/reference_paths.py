"""What is above a field that was found: the fields on the way to it from a static field, a local variable or a
thread."""

from typing import List, Sequence

from heap_tools.candidates import FIELD, LOCAL, STATIC
from heap_tools.probe import Probe, Retained


def is_root(held: Retained) -> bool:
    """Tests whether what holds is no field of instances."""
    return all(each.kind != FIELD for each in held.candidates)


def is_static(held: Retained) -> bool:
    """Tests whether what holds is static fields."""
    return all(each.kind == STATIC for each in held.candidates)


def depth_of(held: Retained) -> int:
    """Returns which of those that hold the same comes first on a path: static fields and threads, then the local
    variables of threads, then fields."""
    if not is_root(held):
        return 2
    return 1 if any(each.kind == LOCAL for each in held.candidates) else 0


def share_candidates(upper: Retained, lower: Retained) -> bool:
    """Tests whether one of several that hold something together is one of the others, too: then neither is above."""
    return not upper.key.isdisjoint(lower.key)


class ReferencePaths:
    """The paths to what a search has `found`: each step of a path holds all that the next one does."""

    def __init__(self, probe: Probe, found: Sequence[Retained]) -> None:
        self.probe = probe
        self.found = sorted(found, key=lambda held: (-held.heap.objects, -held.heap.bytes, depth_of(held)))

    def above(self, held: Retained) -> List[Retained]:
        """Returns what is above `held`, from the top down. It begins with a static field, if one is above: what holds
        that is the class or its loader. No field is above a local variable or a thread."""
        if is_static(held):
            return []
        path: List[Retained] = []
        for each in (upper for upper in self.found if self._is_above(upper, held)):
            if is_static(each) or is_root(each) and path and not is_root(path[-1]):
                path = []
            if not path or not share_candidates(path[-1], each) and self.probe.holds_all(path[-1], each):
                path.append(each)
        return [each for each in path if is_root(each)] if is_root(held) else path

    def _is_above(self, upper: Retained, lower: Retained) -> bool:
        """Tests whether `upper` holds all that `lower` does, and more."""
        if share_candidates(upper, lower):
            return False
        return upper.heap.objects > lower.heap.objects and self.probe.holds_all(upper, lower)
