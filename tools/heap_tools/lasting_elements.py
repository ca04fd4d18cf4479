"""What the elements of a container that were there before gained by a field of theirs, though most instances of that
field came. docs/DECISIONS.md has an example: the stations of a net.
"""

from typing import List, Optional

from heap_tools import hprof_format as hprof
from heap_tools.candidates import Candidate
from heap_tools.container_sizes import container_sizes
from heap_tools.heap_objects import FieldValue
from heap_tools.line_order import MOST
from heap_tools.object_shares import amounts_of
from heap_tools.object_parts import MOST_OBJECTS, FieldUses
from heap_tools.probe import GrowthProbe, Probe, Retained
from heap_tools.which_object import PartsOfField


class Elements:
    """The elements of the container to which the field `held` leads in the dump that `probe` asks. `uses` may know the
    values of the field."""

    def __init__(self, probe: Probe, held: Retained, uses: Optional[FieldUses] = None) -> None:
        self._parts = PartsOfField(probe, held, True, uses, MOST_OBJECTS)
        self._unit, self._objects = probe.unit, self._parts.objects

    def values(self, field: Candidate) -> List[FieldValue]:
        """Returns what the elements that have `field` have in it, null, too."""
        places = self._objects.places_in_instances([field.name], hprof.OBJECT)
        every = (each.instance for each in self._parts.parts.values)
        return [FieldValue(at, at + here) for at in every for _, here in places.get(self._objects.class_of(at), ())]

    def amount(self, values: List[FieldValue]) -> int:
        """Returns how much they hold by these values."""
        return self._unit.of(amounts_of(self._parts.probe, [values])[0])

    def size(self, values: List[FieldValue]) -> int:
        """Returns how many elements the containers have together that these values are."""
        containers = {self._objects.dump.id(each.value) for each in values}
        return sum(container_sizes(self._objects, containers).values())


class LastingElements:
    """The elements of the container to which the field `held` leads, in two dumps. `uses` may know the values of the
    field in the later one."""

    def __init__(self, probe: GrowthProbe, held: Retained, uses: Optional[FieldUses] = None) -> None:
        self._probe, self._held = probe, held
        self._now = Elements(probe, held, uses)
        self._was: Optional[Elements] = None

    def gain(self, field: Candidate) -> float:
        """Returns how much those of them that were there before gained by `field`, on average. Returns nothing if it
        leads to no containers, or if these gained a smaller part of their elements than of what is in them: then it
        piles up below, as in a tree whose first nodes are always the same."""
        now = self._now.values(field)
        size = self._now.size(now) if now else 0
        if not size:
            return 0.0
        earlier = self._was = self._was or Elements(self._probe.earlier, self._probe.before(self._held.candidates))
        was = earlier.values(field)
        came = size - earlier.size(was)
        if came <= 0:
            return 0.0
        amount, before = self._now.amount(now), earlier.amount(was)
        if came * amount < MOST * size * (amount - before):
            return 0.0
        return max(0.0, len(was) * amount / max(len(now), len(was)) - before)
