"""What of all candidates holds much, alone: looked up in the tables of a probe.

Static fields that hold much, and of no class more or less than before, are set aside while fields are looked at: what
fields gained below them only moved there. So the fields of a large steady catalog hold nothing.
"""

from typing import List, Sequence

from heap_tools.candidates import STATIC, Candidate
from heap_tools.probe import Probe, Retained
from heap_tools.reports import Amount

#: The part of the least share up to which what static fields hold may differ from before, in all classes together.
UNCHANGED = 0.1


class Search:
    """A search for what holds `at_least` percent of what the probe asks for. `found` is what has the share, `steady`
    what holds as much, but did not gain it, `all` how many candidates were looked at."""

    def __init__(self, probe: Probe, at_least: float) -> None:
        self.probe, self.at_least = probe, at_least
        self.found: List[Retained] = []
        self.steady: List[Retained] = []
        #: The static fields that are set aside.
        self.aside: List[Candidate] = []
        self.all = 0

    def find(self) -> None:
        """Finds static fields, local variables, threads and fields; static fields of classes alike if none of them is
        found alone, and threads of names that are alike if no other thread is found, nor a local variable."""
        candidates = self.probe.candidates
        self.look_in(candidates.statics())
        alone = {place for held in self.found for each in held.candidates for place in each.places}
        self.look_in([each for each in candidates.statics_alike() if alone.isdisjoint(each.places)])
        known = len(self.found)
        self.look_in(candidates.locals())
        self.look_in(candidates.threads())
        if len(self.found) == known:
            self.look_in(candidates.threads_alike())
        self.aside = [each for held in self.steady if self.is_unchanged(held) for each in held.candidates]
        self.look_in(candidates.fields(self.probe.base))
        self.probe.kept = [held.candidates for held in [*self.found, *self.steady]]

    def is_unchanged(self, held: Retained) -> bool:
        """Tests whether static fields hold of no class more or less than before, but for a little."""
        if any(each.kind != STATIC for each in held.candidates):
            return False
        unit, was = self.probe.unit, self.probe.before(held.candidates).lost
        both = [(held.lost.get(name, Amount()), was.get(name, Amount())) for name in {**held.lost, **was}]
        changed = sum(abs(unit.of(now) - unit.of(before)) for now, before in both)
        return 100 * changed < UNCHANGED * self.at_least * unit.of(self.probe.growth)

    def look_in(self, group: Sequence[Candidate]) -> None:
        """Adds those of `group` that hold enough to what has the share, or to what is steady."""
        self.all += len(group)
        for each in group:
            held = self.probe.retained([each])
            if self.probe.bound([each]) >= self.at_least and self.is_beside(each):
                (self.found if self.probe.share([each]) >= self.at_least else self.steady).append(held)

    def is_beside(self, candidate: Candidate) -> bool:
        """Tests whether a candidate holds enough that nothing that is set aside holds."""
        aside = [[each] for each in self.aside]
        beside = self.probe.beside([candidate], aside) if aside else self.probe.retained([candidate]).amount
        return self.probe.unit.percent(beside, self.probe.growth) >= self.at_least
