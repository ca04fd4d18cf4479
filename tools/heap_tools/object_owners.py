"""What leads to an object of a dump from outside, a few references up: what it may be named by."""

from typing import Dict, List, Sequence, Set

from heap_tools import hprof_format as hprof
from heap_tools.class_names import is_own
from heap_tools.heap_objects import THREAD_CLASS
from heap_tools.referrers import MOST_OWNERS, Referrer, ReferrerKind, Referrers

#: How many references above an object its owners are looked for. What has the key most often is two or three up: a
#: list, in an object, in the node of a map. A wrapper between is one more, and a proxy two: its handler, and what that
#: leads to. Further up nearly everything is in the same few objects.
STEPS_ABOVE = 6
#: How many references up it is followed whether all that leads to a referrer comes from the object that it refers to:
#: an element of a map is five references below what has the map, or seven if it is the third in its bucket.
STEPS_WITHIN = 8
#: To how many objects that is followed: some tens are on the way up from an element, and hundreds lead to what all of a
#: program refers to, such as the scope of its functions. Of a referrer with more it is not known.
MOST_WITHIN = 400

#: What refers to an object from one class, by one field.
ReferrerGroup = List[Referrer]


def judged(group: ReferrerGroup) -> ReferrerGroup:
    """Returns those of a group of which it is asked whether they lead to an object from outside: of many, which are
    alike, the first."""
    return group if len(group) <= MOST_OWNERS else group[:1]


def judged_as(referrer: Referrer, group: ReferrerGroup) -> Referrer:
    """Returns the one of a group that stands for `referrer`."""
    return referrer if len(group) <= MOST_OWNERS else group[0]


class Owners:
    """Looks for the owners of objects by `referrers`, which is what refers to objects in a dump."""

    def __init__(self, referrers: Referrers) -> None:
        self.referrers, self.objects, self.dump = referrers, referrers.objects, referrers.dump
        self._roots = {self.dump.id(root.place) for root in self.dump.roots}

    def above(self, places: Sequence[int], others: Sequence[int]) -> Dict[int, List[List[Referrer]]]:
        """Returns what leads to the object at each of these places, and to those at `others`, one reference above it,
        two, and so on. Elements that point back to what holds them do not lead to it, nor do neighbours. What leads to
        one of the objects at `places` is not followed from what is in it: that has it only by way of the object. A walk
        over all objects takes all one reference further up."""
        every = [*places, *others]
        ids = {at: self.dump.id(at + 1) for at in every}
        chosen = {ids[at] for at in places}
        owners: Dict[int, List[List[Referrer]]] = {at: [] for at in every}
        classes = {at: {ids[at]: self.objects.class_name(at)} for at in every}
        above = {at: {ids[at]} for at in every}
        for _ in range(STEPS_ABOVE):
            asked = {target for at in places for target in above[at]}
            referrers = self._from_outside(asked, {target for at in others for target in above[at]} - asked)
            for at in every:
                step = [each for target in sorted(above[at]) for each in referrers.get(target, ())]
                known, seen = classes[at], set(classes[at])
                known.update((self.dump.id(each.place + 1), self.objects.class_name(each.place)) for each in step)
                followed = {self.dump.id(each.place + 1) for each in step if self._leads_on(each, known)}
                step = [each for each in step if not self._is_neighbour(each, known)]
                owners[at].append(step if len(step) <= MOST_OWNERS else [])
                above[at] = followed - seen - chosen if len(step) <= MOST_OWNERS else set()
        return owners

    def _is_neighbour(self, each: Referrer, classes: Dict[int, str]) -> bool:
        """Tests whether a referrer has the class of the object that it refers to, as in a chain: each of these has a
        name of its own."""
        return classes[each.target] == self.objects.class_name(each.place)

    def _leads_on(self, each: Referrer, classes: Dict[int, str]) -> bool:
        """Tests whether what leads to a referrer leads to the object below it, too. What leads to a class or a thread
        says nothing of what these have. What leads to a neighbour has that, not the object, unless both are parts of a
        collection of the JDK."""
        if self.dump.bytes[each.place] == hprof.CLASS_DUMP or self._is_thread(each.place):
            return False
        return not self._is_neighbour(each, classes) or not is_own(self.objects.class_name(each.place))

    def _is_thread(self, at: int) -> bool:
        return self.objects.place_of_value(at, THREAD_CLASS, "name", hprof.OBJECT) is not None

    def _from_outside(self, asked: Set[int], others: Set[int]) -> Dict[int, List[Referrer]]:
        """Returns what refers to each of these objects, and is held by something else; if that is known of none, those
        of which it is not known. If one of a class is known to be, so are those of which it is not known that refer to
        the object by the same field. Many of one class and field are left out if there are others: these say more. That
        something is held elsewhere is looked up as far as `asked` take it."""
        self.referrers.look_up(asked | others)
        groups = {target: self._groups(target) for target in [*asked, *others]}
        several = [of_target for of_target in groups.values() if sum(map(len, of_target)) > 1]
        leads = self._leads([each for of_target in several for group in of_target for each in judged(group)], asked)
        found: Dict[int, List[Referrer]] = {}
        for target, of_target in groups.items():
            known = [(group, {leads[each] for each in judged(group) if each in leads}) for group in of_target]
            outside = [
                [it for it in group if leads.get(judged_as(it, group), True)] for group, of in known if True in of
            ]
            every = outside or [group for group, of in known if not of]
            few = [group for group in every if len(group) <= MOST_OWNERS]
            found[target] = [each for group in few or every for each in group]
        return found

    def _groups(self, target: int) -> List[ReferrerGroup]:
        """Returns what refers to an object, by the class and the field that does."""
        groups: Dict[ReferrerKind, ReferrerGroup] = {}
        for each in self.referrers.of(target):
            groups.setdefault(self.referrers.kind_of(each), []).append(each)
        return list(groups.values())

    def _leads(self, referrers: Sequence[Referrer], asked: Set[int]) -> Dict[Referrer, bool]:
        """Returns whether something leads to these referrers that does not come by way of the object to which they
        refer. Those of which that is not known after some steps are left out. As many steps are made as those take
        that refer to `asked`."""
        known = {each: {self.dump.id(each.place + 1)} for each in referrers}
        found = {each: True for each in referrers if self.dump.bytes[each.place] == hprof.CLASS_DUMP}
        last = {first: set(ids) for first, ids in known.items() if first not in found}
        for _ in range(STEPS_WITHIN):
            self.referrers.look_up(key for first, ids in last.items() if first.target in asked for key in ids)
            for first, ids in list(last.items()):
                leading = {key: self.referrers.of(key) for key in ids}
                if not all(map(self.referrers.is_known, ids)):
                    del last[first]
                    continue
                if any(self._is_outside(key, of_key) for key, of_key in leading.items()):
                    found[first] = True
                above = {self.dump.id(each.place + 1) for of_key in leading.values() for each in of_key}
                last[first] = above - known[first] - {first.target}
                known[first] |= last[first]
                if not last[first]:
                    found.setdefault(first, False)
                if first in found or len(known[first]) > MOST_WITHIN:
                    del last[first]
        return found

    def _is_outside(self, identifier: int, referrers: Sequence[Referrer]) -> bool:
        """Tests whether a root or a static field leads to an object; what nothing leads to is a root, too."""
        is_static = any(self.dump.bytes[each.place] == hprof.CLASS_DUMP for each in referrers)
        return not referrers or is_static or identifier in self._roots
