"""What holds much only together: up to three candidates of any kinds, each of which is needed.

retained finds in one run what any number of groups hold. So no path to an object is walked: the candidates are cut into
blocks, and it is asked of all blocks, pairs and triples of blocks. No part of a group holds more than the group, so
only blocks of groups that gained enough are looked into, until each block is one candidate: then it is known what each
group of them gained, and that no two of three gained nearly as much shows that each is needed. It need not be the one
of all candidates that gained most: blocks are chosen by all that they gained, and what a group gained bounds that of
its parts only if nothing of it shrank.
"""

from itertools import combinations
from typing import List, NamedTuple, Sequence, Set, Tuple

from heap_tools.candidates import FIELD, Candidate
from heap_tools.dump_side import DumpSide, Several, ask_places, key_of
from heap_tools.held_table import HeldTable
from heap_tools.label_text import Place
from heap_tools.line_order import MOST, NEARLY
from heap_tools.probe import Probe

#: How many may be needed.
MOST_NEEDED = 3
#: Of how many classes it is asked which of their fields are needed.
MOST_KIN = 4
#: In how many blocks candidates are cut: so a run has some 2,300 labels, and three runs find three of 3,000 candidates.
BLOCKS = 24
#: How many of these are looked into at most.
MOST_KEPT = BLOCKS // 2


class Joint(NamedTuple):
    """Some blocks, what they gained that they hold only together, in the unit of the question, and how many objects
    they hold so."""

    blocks: Tuple[int, ...]
    gain: int
    objects: int


class JointSearch:
    """A search among `candidates` for those that gained `at_least` percent of the growth only together. What one of
    them holds alone does not count, unless `counts_alone` is set, or it is a thread: what threads lead to may be held
    together below."""

    #: The part of what any others gained that the fewest must have gained to be found.
    part = NEARLY

    def __init__(
        self, probe: Probe, at_least: float, candidates: Sequence[Candidate], counts_alone: bool = False
    ) -> None:
        self.probe, self.candidates = probe, candidates
        self.least = at_least * probe.unit.of(probe.growth) / 100
        self._alone = [] if counts_alone else alone(candidates)

    def find(self) -> List[Candidate]:
        """Returns the candidates that are needed, none if no three gained enough."""
        left: Several = self.candidates
        while left:
            blocks = cut(left)
            joints = self._minimal(blocks)
            if joints and len(blocks) == len(left):
                every = [[left[number] for number in joint.blocks] for joint in joints]
                return self._related(min(zip(every, joints), key=lambda pair: self.preference(*pair))[0])
            left = [each for number in kept(joints) for each in blocks[number]]
        return []

    def _related(self, group: Several) -> List[Candidate]:
        """Returns a group without threads that hold mostly alone what they add to it, nor what adds nothing to what it
        gained: what that held alone before, all hold now."""
        of, gain = self.probe.unit.of, self.probe.gain
        adds = {each.key: of(gain(group)) - of(gain([it for it in group if it is not each])) for each in group}
        left = [it for it in group if not it.is_thread or of(gain([it])) < MOST * adds[it.key] or len(group) == 1]
        while True:
            rests = ([it for it in left if it is not each] for each in left if len(left) > 1)
            enough = next((rest for rest in rests if of(gain(rest)) >= of(gain(left))), None)
            if enough is None:
                return left
            left = enough

    def preference(self, group: Several, joint: Joint) -> Tuple[int, ...]:
        """Returns what the best ones are the smallest by: how many are not own, of how many classes they are, how many
        they are, and how much they hold."""
        return sum(not each.is_own for each in group), len({each.owner for each in group}), len(group), joint.objects

    def _minimal(self, blocks: Sequence[Several]) -> List[Joint]:
        """Returns the fewest blocks that gained enough, also beside what any others did, and of which each is needed:
        without it they gained less."""
        found: List[Joint] = []
        every = self._joints(blocks)
        gains = {joint.blocks: joint.gain for joint in every}
        least = max(self.least, self.part * max(gains.values()))
        for joint in every:
            parts = (part for count in range(1, len(joint.blocks)) for part in combinations(joint.blocks, count))
            is_needed = all(gains[part] < min(least, NEARLY * joint.gain) for part in parts)
            if joint.gain >= least and is_needed:
                found.append(joint)
        return found

    def _joints(self, blocks: Sequence[Several]) -> List[Joint]:
        """Asks what all blocks, pairs and triples hold only together, in one run for each dump, unless it is known. The
        fewest come first. Tables of single candidates are kept, with what the probe keeps: what is found is one of
        their groups."""
        several = [each for count in range(MOST_NEEDED) for each in combinations(range(len(blocks)), count + 1)]
        every = [[each for number in numbers for each in blocks[number]] for numbers in several]
        if not self._alone and self.probe.knows(every):
            return [self._known_joint(numbers, group) for numbers, group in zip(several, every)]
        sides, others = self.probe.sides(), self.probe.kept
        tables = ask_places([(side, self._places(side, blocks, several)) for side in sides])
        if max(map(len, blocks)) == 1:
            for side, table in zip(sides, tables):
                side.keep(table, [*every, *others])
        labels = len(several) + len(others)
        now, *before = (self._held_together(side, table, labels) for side, table in zip(sides, tables))
        gains = [held - sum(was[number][0] for was in before) for number, (held, _) in enumerate(now)]
        return [Joint(each, gain, objects) for each, gain, (_, objects) in zip(several, gains, now)]

    def _known_joint(self, numbers: Tuple[int, ...], group: Several) -> Joint:
        """Returns some blocks of which it is known what they hold together."""
        return Joint(numbers, self.probe.unit.of(self.probe.gain(group)), self.probe.retained(group).heap.objects)

    def _places(
        self, side: DumpSide, blocks: Sequence[Several], several: Sequence[Tuple[int, ...]]
    ) -> List[Sequence[Place]]:
        """Returns the places of `several` blocks each, those of what the probe keeps, then those of each candidate that
        does not count alone."""
        of_block = [side.places(each) for each in blocks]
        together = [[place for number in each for place in of_block[number]] for each in several]
        return [*together, *map(side.places, [*self.probe.kept, *self._alone])]

    def _held_together(self, side: DumpSide, table: HeldTable, count: int) -> List[Tuple[int, int]]:
        """Returns for each of the first `count` labels how much it holds that no later label does, and how many
        objects."""
        found = [(0, 0)] * count
        for number in table.sets_below(count):
            amount = self.probe.unit.of(self.probe.amount_of(side.held(table, [number])))
            objects = table.objects_in([number])
            for label in table.labels_of(number):
                found[label] = found[label][0] + amount, found[label][1] + objects
        return found


class DeepestSearch(JointSearch):
    """A search for the deepest of all that gained enough: those that hold least."""

    part = 0.0

    def preference(self, group: Several, joint: Joint) -> Tuple[int, ...]:
        """Returns how much they hold."""
        return (joint.objects,)


def alone(candidates: Several) -> List[Several]:
    """Returns the candidates of which it does not count what they hold alone, each as a group."""
    return [[each] for each in candidates if not each.is_thread]


def joint_answers(
    probe: Probe, at_least: float, explained: Sequence[Several], candidates: Several, known: Several
) -> Sequence[Several]:
    """Returns what gained `at_least` percent of the growth together that none of `explained` holds: of the fields of a
    class those that are needed; if these leave as much, those of `candidates` that hold enough only together.
    They are some of `known`: what all of these gained only together was asked before, and if it is less, nothing is
    asked."""
    kin = kin_with(probe, at_least, explained, candidates)
    found = [needed_of(probe, at_least, each) or with_effect(probe, each) for each in kin]
    return with_any(probe, at_least, found, candidates, known)


def joint_roots(probe: Probe, at_least: float, roots: Several, known: Several) -> Sequence[Several]:
    """Returns which of some roots gained `at_least` percent of the growth together: static fields of one class, of
    which most is known; if these leave as much, any. `known` is that of `joint_answers`."""
    kin = [needed_of(probe, at_least, each) for each in kin_with(probe, at_least, [], roots)]
    return with_any(probe, at_least, [each for each in kin if each], roots, known)


def with_any(
    probe: Probe, at_least: float, found: List[Several], candidates: Several, known: Several
) -> Sequence[Several]:
    """Returns what was found, and if that leaves as much, those of `candidates` that hold enough only together, each
    with the deepest fields in its place."""
    least = at_least * probe.unit.of(probe.growth) / 100
    if probe.unit.of(probe.gain_beside(known, [*alone(known), *found])) >= least:
        found += [each for each in [JointSearch(probe, at_least, candidates).find()] if each]
    return [by_amount(probe, deepened(probe, each)) for each in found if probe.share(each) >= at_least]


def kin_with(probe: Probe, at_least: float, explained: Sequence[Several], candidates: Several) -> Sequence[Several]:
    """Returns those of `candidates` that a class declares, of each class of which all gained enough that none of
    `explained` holds, own ones first, then those that gained most."""
    known, taken = key_of(candidates), frozenset().union(*map(key_of, explained))
    kin = [group for group in probe.candidates.kin().values() if len(group) > 1 and known.issuperset(key_of(group))]
    probe.ask_together([*kin, *explained])
    gains = [(probe.unit.percent(probe.gain_beside(group, explained), probe.growth), group) for group in kin]
    enough = sorted((pair for pair in gains if pair[0] >= at_least), key=lambda it: (not it[1][0].is_own, -it[0]))
    return [[each for each in group if each.key not in taken] for _, group in enough[:MOST_KIN]]


def needed_of(probe: Probe, at_least: float, group: Several) -> Several:
    """Returns those of `group` that hold enough only together, none if one holds what it adds mostly alone: the sum of
    what has nothing to do with each other is no answer."""
    needed = JointSearch(probe, at_least, group, counts_alone=True).find()
    rests = [[it for it in needed if it is not each] for each in needed]
    probe.ask([needed, *rests] if len(needed) > 1 else [])
    if len(needed) < 2 or probe.share(needed) < at_least:
        return []
    adds = [probe.share(needed) - probe.share(rest) for rest in rests]
    return needed if all(probe.share([it]) < MOST * more for it, more in zip(needed, adds)) else []


def with_effect(probe: Probe, group: Several) -> Several:
    """Returns those of a group without which it gained less: what the others lead to is held elsewhere, too."""
    rests, of = [[it for it in group if it is not each] for each in group], probe.unit.of
    probe.ask([group, *rests])
    return [each for each, rest in zip(group, rests) if of(probe.gain(rest)) < of(probe.gain(group))]


def cut(candidates: Several) -> List[Several]:
    """Returns candidates in at most `BLOCKS` blocks of about one length. If a class has no more fields than a block,
    all are in one: so it does not depend on where blocks end that they are found together."""
    count, bounds = min(BLOCKS, len(candidates)), [0]
    for number in range(1, count):
        end = number * len(candidates) // count
        of_class = next((at for at in range(end, bounds[-1], -1) if _begins_class(candidates, at)), end)
        bounds.append(of_class)
    return [candidates[begin:end] for begin, end in zip(bounds, [*bounds[1:], len(candidates)])]


def _begins_class(candidates: Several, at: int) -> bool:
    """Tests whether a candidate is of another class than the one before it."""
    return candidates[at].owner != candidates[at - 1].owner


def kept(joints: Sequence[Joint]) -> List[int]:
    """Returns the blocks of as many of `joints` as may be looked into, the fewest blocks first, of these those that
    hold least: they are the deepest."""
    found: Set[int] = set()
    for joint in sorted(joints, key=lambda joint: (len(joint.blocks), joint.objects)):
        if not found or len(found.union(joint.blocks)) <= MOST_KEPT:
            found.update(joint.blocks)
    return sorted(found)


def deepened(probe: Probe, group: Several) -> Several:
    """Returns a group in which fields below them are in the places of its members, if these gained nearly as much, and
    each of them is needed: what leads to three tables says less than these. Asks once for all fields that may be in a
    place, and once for those that can be, together."""
    least = NEARLY * probe.unit.of(probe.gain(group))
    lower = {each.key: below(probe, each) for each in group if len(group) <= MOST_NEEDED}
    every = [(each, it, in_place_of(group, each, it)) for each in group for it in lower.get(each.key, ())]
    probe.ask([changed for _, _, changed in every])
    deepest = list(group)
    for member, _, changed in every:
        if probe.unit.of(probe.gain(changed)) >= least:
            number = group.index(member)
            deepest[number] = min(deepest[number], changed[number], key=lambda it: probe.retained([it]).heap.objects)
    if key_of(deepest) == key_of(group) or len(key_of(deepest)) < len(group):
        return group
    is_enough = probe.unit.of(probe.gain(deepest)) >= least
    return deepest if is_enough and len(with_effect(probe, deepest)) == len(deepest) else group


def below(probe: Probe, upper: Candidate) -> List[Candidate]:
    """Returns the fields of few instances of which each holds something, and only what `upper` holds, too: own ones if
    that is one, since those of the JDK say less."""
    held = probe.retained([upper])
    fields = [each for each in probe.candidates.few() if each.kind == FIELD and each.key != upper.key]
    fields = [each for each in fields if each.is_own or not upper.is_own]
    return [it for it in fields if probe.retained([it]).heap.objects and probe.holds_all(held, probe.retained([it]))]


def in_place_of(group: Several, member: Candidate, other: Candidate) -> List[Candidate]:
    """Returns a group with another candidate in the place of a member."""
    return [other if each is member else each for each in group]


def by_amount(probe: Probe, group: Several) -> List[Candidate]:
    """Returns candidates, those first that hold most alone."""
    return sorted(group, key=lambda each: (-probe.unit.of(probe.retained([each]).amount), str(each)))
