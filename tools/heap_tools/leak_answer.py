"""The lines of `leaks`, one after the other: each is the answer to what those above it leave open.

The first line is the answer to the question. Then the references that it is about are cut, in each dump, and the same
is asked again of what is left: the answer is the second line, and so on. So no object counts in two lines, and shares
add up. A line after the first must hold something that lasts: what only new objects hold is no second leak. If nothing
that lasts is left, running calls count: what they hold beside all lines may be a line, too.
"""

from typing import FrozenSet, List, NamedTuple, Optional, Sequence

from heap_tools.candidates import Candidate
from heap_tools.dump_side import GroupKey, Several
from heap_tools.element_counts import element_counts
from heap_tools.leak_lines import Line, Ranking, ranking_of, searched
from heap_tools.leak_options import Bounds
from heap_tools.probe import Between, GrowthProbe, Probe, Retained, RunningCalls, nothing_between
from heap_tools.reports import Amount
from heap_tools.search import Search


class Beside(NamedTuple):
    """What gained something that no line holds, and which share of all that is asked for that is, in percent."""

    held: Retained
    share: float


class Answer(NamedTuple):
    """The lines, how many more there are if all are shown, what was looked for first, how much there is of what is
    asked for, of which shares are, and how much of that no line holds. `lasts`: something that lasts holds what the
    first line does, not only new objects. `is_above`: what is above a line holds as much of the rest as a line must.
    `beside`: what gained as much beside all lines, though too little is left, since something else shrank."""

    lines: List[Line]
    hidden: int
    search: Search
    whole: Amount
    left: Amount
    lasts: bool
    is_above: bool = False
    beside: Optional[Beside] = None

    @property
    def left_percent(self) -> float:
        """The share of what is asked for that no line holds, in percent."""
        return self.search.probe.unit.percent(self.left, self.whole)


def answer_of(
    whole: Probe, bounds: Bounds, between: Between = nothing_between, calls: Optional[RunningCalls] = None
) -> Answer:
    """Searches what `whole` asks for what holds it, and returns the lines. `calls`: running calls hold as much as a
    line must, and do not count at first."""
    search = searched(whole, bounds.first)
    found = ranked(search, between)
    answer = (
        every_line(search, found, bounds) if bounds.shows_all else one_by_one(search, found, bounds, between, calls)
    )
    return answer._replace(lines=with_elements(answer.lines, whole))


def with_elements(lines: Sequence[Line], whole: Probe) -> List[Line]:
    """Returns lines that know how many elements their containers have and had."""
    fields = [line.held.candidates for line in lines]
    now = element_counts(whole, fields)
    was = element_counts(whole.earlier, fields) if isinstance(whole, GrowthProbe) else [None] * len(lines)
    return [line._replace(elements=it, elements_before=before) for line, it, before in zip(lines, now, was)]


def every_line(search: Search, found: Ranking, bounds: Bounds) -> Answer:
    """Returns all that was found, each as a line."""
    whole, count = search.probe, min(bounds.top, len(found.ranked))
    lines = [found.line(number, whole, whole.growth) for number in range(count)]
    left = whole.growth.minus(whole.gain(found.ranked[0].candidates)) if lines else whole.growth
    return Answer(lines, len(found.ranked) - count, search, whole.growth, left, found.is_lasting)


def one_by_one(
    search: Search, first: Ranking, bounds: Bounds, between: Between, calls: Optional[RunningCalls]
) -> Answer:
    """Returns the lines of which each holds nothing that those above it do."""
    whole = calls.whole if calls else search.probe.growth
    found = LinesInTurn(search.probe, bounds, whole)
    found.add(first, between)
    if calls and found.lines and not found.is_done:
        probe = calls.without(found.cut)
        if not found.is_little(probe.growth):
            found.add(found.ranked(probe, calls.between), calls.between)
    return Answer(found.lines, 0, search, whole, found.left, first.is_lasting, found.is_above, found.beside(search))


class LinesInTurn:
    """Lines of which each holds nothing that those before it do. `asked` is what asks first, `of` what shares are of,
    and `left` how much of it no line holds. `cut` is what the lines are about. `is_above`: of what they leave, what is
    above one of them holds as much as a line must."""

    def __init__(self, asked: Probe, bounds: Bounds, of: Amount) -> None:
        self.asked, self.bounds, self.of, self.left = asked, bounds, of, of
        self.lines: List[Line] = []
        self.cut: List[Candidate] = []
        self.is_above = False

    @property
    def is_done(self) -> bool:
        """Tests whether there are as many lines as are shown, or too little is left for another one."""
        return len(self.lines) == self.bounds.top or self.is_little(self.left)

    def is_little(self, amount: Amount) -> bool:
        """Tests whether an amount is too little for a line."""
        return self._share(amount) < self.bounds.others

    def _share(self, amount: Amount) -> float:
        return self.asked.unit.percent(amount, self.of)

    def add(self, found: Ranking, between: Between) -> None:
        """Adds the answer as a line, then that to what it leaves open, and so on: of those after the first what
        lasts."""
        while found.ranked and (not self.lines or found.is_lasting):
            self.lines.append(found.line(0, self.asked, self.of))
            group, probe = found.ranked[0].candidates, found.probe
            self.left, self.cut = self.left.minus(probe.gain(group)), [*self.cut, *group]
            if self.is_done or self.is_little(probe.growth.minus(probe.gain(group))):
                break
            found = self.ranked(probe.without(group), between)

    def beside(self, first: Search) -> Optional[Beside]:
        """Returns what gained most that no line holds, of what was found first, if that is as much as a line must hold
        more than is left, which is too little: something else shrank. It is looked up, and asked only to be sure."""
        if not self.lines or not self.is_little(self.left):
            return None
        probe, every = first.probe, [line.held.candidates for line in self.lines]
        known = [held for held in first.found if probe.knows_together([held.candidates, *every])]
        most = max(known, key=lambda it: probe.unit.of(probe.gain_beside(it.candidates, every)), default=None)
        least = self.bounds.others + max(0.0, self._share(self.left))
        if most is None or self._share(probe.gain_beside(most.candidates, every)) < least:
            return None
        # The lines may hold together what none of them holds alone.
        share = self._share(probe.gain_beside(most.candidates, [[each for of_line in every for each in of_line]]))
        return Beside(most, share) if share >= least else None

    def ranked(self, probe: Probe, between: Between) -> Ranking:
        """Returns what holds as much as a line must of what the lines leave, for which `probe` asks."""
        search = searched(probe, self.bounds.others * probe.unit.of(self.of) / probe.unit.of(probe.growth))
        above = frozenset(each.key for line in self.lines for each in line.above)
        self.is_above = any(held.key in above for held in search.found)
        return ranked(search, between, self.cut, above)


def ranked(search: Search, between: Between, cut: Several = (), above: FrozenSet[GroupKey] = frozenset()) -> Ranking:
    """Returns what a search has found without the candidates `cut`, in its order. What is named in `above` is no
    line."""
    asked = between([held.candidates for held in search.found], cut) if search.found else []
    return ranking_of(search, asked, above)
