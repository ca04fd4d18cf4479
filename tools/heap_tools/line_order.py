"""The order of the lines of `leaks`, the answer first.

A line's score is what it gained without what came with new instances (unless they are classes alike, one object gained
most, or elements that the answer had before), without what was above it, below it or in a field of its class before,
and nothing if it did not grow at each step between dumps. Lines that gained unevenly come later: scores are compared
without the part of the gain by which the largest step exceeds the smallest, as they are or per time. If no score is a
quarter of the most that a line gained, nothing that lasts holds what grew: the answer is the topmost line. Else the
answer is the deepest line on the path of the best score, above or below it, that has half of that score: the
accumulation point. A collection, several of the JDK or with a thread together, a variable of a lambda or a thread is
the answer only if no other line on that path has that much, and a collection only if none below it has a quarter, else
the best of these begins the path instead; and own fields, and those of which one object gained most, come before those
of the JDK, and these before several together. The other lines follow by their scores.
"""

import enum
from typing import Callable, Iterable, List, Optional, Sequence, Tuple

from heap_tools.candidates import FEW, FIELD, STATIC, THREAD, THREADS, Candidate
from heap_tools.line_features import Features
from heap_tools.probe import Retained

#: The part of the best score that a line must have to be on its path. 0.4 to 0.6 gave the same answers.
MOST = 0.5
#: The part of what another line has that is as good as all of it: the rest is what else either has.
NEARLY = 0.9
#: The part of the largest gain that the best score must be: with less, too little is in what was there before.
LASTS = 0.25
#: The part of what a line holds that it may have held before, if it is asked whether that was beside it.
HARDLY_ANY = 0.1
#: The part of its instances that a field must hold to be a chain, and that must have a value in it: each leads to the
#: next one. Of a tree's nodes the field holds nearly all, too, but few lead to others.
CHAIN = 0.5
#: Of how many lines below the answer it is asked at most whether one object gained most: each takes a run or two.
MOST_ASKED = 3
#: What `says` is of a single line of the program, and of several that hold something only together.
OF_PROGRAM, TOGETHER = 3, 1


class Scoring(enum.Enum):
    """What the score of a line is."""

    #: What its instances gained that it had before, as above.
    GAIN = enum.auto()
    #: What it holds, of one dump: none if more than `FEW` instances have a value and no object holds most.
    SHARE = enum.auto()


def says(line: Features) -> int:
    """Returns how much a line's name says of what it is for: `OF_PROGRAM`, or of the JDK or several together if one
    object gained most, of several also if each gained its part by its own; 2 of the JDK, `TOGETHER`, 0 of a collection,
    several of the JDK or with a thread, a variable of a lambda or a thread."""
    if len(line.kinds) > 1:
        several = OF_PROGRAM if line.of_one or line.of_each else TOGETHER
        return several if line.is_own and not {THREAD, THREADS} & set(line.kinds) else 0
    if line.is_collection or line.is_thread or "$$Lambda" in line.name:
        return 0
    return OF_PROGRAM if line.is_own or line.of_one else 2


def is_of_classes_alike(line: Features) -> bool:
    """Tests whether a line is a static field of classes alike, whose name is a pattern. These are no instances that
    come and go: one loader, which lasts, has several, and a leak makes more of them."""
    return line.kinds == (STATIC,) and "*" in line.name


def lasting_gain(line: Features) -> float:
    """Returns what the instances gained that a line had before, too, on average, at least what one has; or what all
    gained, without what the new ones would have held before, if they are few. An instance without a value is none: of
    14,581 nodes of a tree 351 may have children, so what one of these gained in leaves did not come with new nodes. An
    average rises, too, if new instances are larger: so if it is known, the largest ones count as new."""
    came = line.part_came
    if not came or is_of_classes_alike(line):
        return line.gain
    of_new = max(came, line.of_largest or 0.0)
    lasting = max(line.amount / line.with_value, (1 - of_new) * line.amount - line.before)
    return max(lasting, line.gain - line.before * came / (1 - came)) if came < 1 and line.with_value <= FEW else lasting


def part_gained(line: Features, upper: Features) -> float:
    """Returns the part of a line's gain that `upper`, which holds all of it, gained, too: of the class of which that is
    most. What moved takes all its classes along."""
    parts = [upper.gains.get(name, 0) / gain for name, gain in line.gains.items() if gain > 0]
    return min(1.0, max(0.0, *parts)) if parts else 1.0


#: Tests whether the first of two lines, by their numbers, holds all that the second does, or nearly: `NEARLY` of it.
Holds = Callable[[int, int], bool]


class LineOrder:
    """The order of `lines`, of which some are `Features.is_line`: numbers of these, by what `holds` what."""

    def __init__(self, lines: Sequence[Features], holds: Holds, scoring: Scoring = Scoring.GAIN) -> None:
        self.lines, self.holds, self.scoring = lines, holds, scoring
        self.numbers = sorted((it for it, line in enumerate(lines) if line.is_line), key=lambda it: lines[it].heap)
        self.some_are_steady = any(lines[number].grew_at_each_step for number in self.numbers)
        self.scores = {number: self.score(number) for number in self.numbers}
        #: The scores by which lines are compared that may have gained by chance.
        self.even_scores = {number: score * self._evenness(number) for number, score in self.scores.items()}

    def sorted(self) -> List[int]:
        """Returns the numbers of the lines, the answer first."""
        answer = self.answer()
        return sorted(self.numbers, key=lambda it: (it != answer, -self.even_scores[it], *self._depth(it)))

    def answer(self) -> Optional[int]:
        """Returns the number of the answer, None if there is no line."""
        if not self.numbers:
            return None
        best = self.best()
        return self.deepest_with(best) if self._lasts(best) else self.topmost()

    def lasts(self) -> bool:
        """Tests whether something that lasts holds enough of the growth, or there is no line. Else the answer is only
        the topmost line: new instances hold what grew."""
        return not self.numbers or self._lasts(self.best())

    def score(self, number: int) -> float:
        """Returns the score of a line."""
        line = self.lines[number]
        if self.scoring is Scoring.SHARE:
            is_whole = line.with_value <= FEW or is_of_classes_alike(line)
            return line.amount if is_whole else line.amount * line.of_one
        if not self._is_steady(number):
            return 0.0
        score = max(lasting_gain(line), max(line.of_one, line.of_elements) * line.gain)
        for it, other in enumerate(self.lines):
            both = line.gain * part_gained(line, other)
            if it != number and other.gain < MOST * line.gain and self.holds(it, number):
                score = min(score, both)
            below = max(both, other.gain) + line.amount - other.amount
            if it != number and other.amount <= line.amount and below < NEARLY * score and self.holds(number, it):
                score = below
        return score

    def best(self) -> int:
        """Returns the line with the best score, of several that which holds least."""
        lines, scores = self.lines, self.even_scores
        return max(self.numbers, key=lambda it: (scores[it], -lines[it].heap, lines[it].name))

    def _lasts(self, number: int) -> bool:
        """Tests whether the score of a line is enough of the most that a line gained."""
        largest = max(self.lines[it].gain for it in self.numbers if self._is_steady(it))
        return self.scores[number] >= LASTS * largest

    def topmost(self) -> int:
        """Returns the line that no other one holds, of several the one that gained most."""
        lines, steady = self.lines, [it for it in self.numbers if self._is_steady(it)]
        top = [it for it in steady if not any(self._is_below(it, upper) for upper in steady)]
        return max(top or steady, key=lambda it: lines[it].gain)

    def deepest_with(self, best: int) -> int:
        """Returns the deepest line above or below `best` that has most of its score, of those whose names say most."""
        near = [it for it in self.numbers if self.even_scores[it] >= MOST * self.even_scores[best]]
        path = (it for it in near if it == best or self._is_below(it, best) or self._is_below(best, it))
        answer = min(path, key=lambda it: (-says(self.lines[it]), *self._depth(it)))
        part = self._largest_part(best) if self.lines[answer].is_collection else None
        return answer if part is None else self.deepest_with(part)

    def _largest_part(self, best: int) -> Optional[int]:
        """Returns the line with the best score of those below `best` that say something and have `LASTS` of its score,
        None if there are none: the field of a collection may hold what several leaks gained."""
        least, scores = LASTS * self.even_scores[best], self.even_scores
        parts = [it for it in self.numbers if says(self.lines[it]) and scores[it] >= least and self._is_below(it, best)]
        return max(parts, key=lambda it: (scores[it], -self.lines[it].heap, self.lines[it].name)) if parts else None

    def to_ask(self) -> List[int]:
        """Returns the lines of which it is to be asked whether one object gained most: fields of instances that gained
        most of what the answer did and are below it, those first whose names say most, then those with the fewest
        instances; then the answer."""
        answer = self.answer()
        if answer is None:
            return []
        lines, least = self.lines, MOST * self.lines[answer].gain
        found = [it for it in self.numbers if lines[it].gain >= least and self._has_objects(it)]
        found = [it for it in found if it == answer or self._is_below(it, answer)]
        found.sort(key=lambda it: (-says(lines[it]), lines[it].with_value))
        return [*found[:MOST_ASKED], *([] if answer in found else [answer])]

    def to_ask_of_elements(self) -> List[int]:
        """Returns the lines of which it is to be asked what the elements of the answer's container gained: fields below
        it that gained most of what it did, by new instances, those first whose names say most."""
        answer = self.answer()
        if answer is None or self.lines[answer].kinds not in ((FIELD,), (STATIC,)):
            return []
        lines, least = self.lines, MOST * self.lines[answer].gain
        found = [
            it for it in self.numbers if lines[it].kinds == (FIELD,) and says(lines[it]) and lines[it].gain >= least
        ]
        found = [it for it in found if self.scores[it] < MOST * self.scores[answer] and self._is_below(it, answer)]
        return sorted(found, key=lambda it: (-says(lines[it]), -lines[it].heap))[:MOST_ASKED]

    def to_ask_of_new(self) -> Optional[int]:
        """Returns a line of which it is to be asked what its new instances can hold at most: the best one, or the
        answer, if its score is an average over many instances, of which some came. Returns None if neither's is."""
        answer = self.answer()
        if answer is None or not self._lasts(self.best()):
            return None
        return next((it for it in (self.best(), answer) if self._is_average(it)), None)

    def _is_average(self, number: int) -> bool:
        """Tests whether the score of a line is an average."""
        line = self.lines[number]
        known = max(line.of_one, line.of_elements) * line.gain
        is_of_many = line.kinds == (FIELD,) and line.with_value > FEW
        return is_of_many and line.of_largest is None and line.part_came > 0 and self.scores[number] > known

    def _has_objects(self, number: int) -> bool:
        """Tests whether a line is about several instances, of which one may hold most. Of many collections one that
        does says little, and the first of a chain always does."""
        line = self.lines[number]
        is_one = line.kinds == (FIELD,) and line.instances > 1
        return is_one and not line.is_chain and (says(line) > TOGETHER or line.with_value <= FEW)

    def _is_steady(self, number: int) -> bool:
        """Tests whether a line grew at each step, or none did."""
        return self.lines[number].grew_at_each_step or not self.some_are_steady

    def _evenness(self, number: int) -> float:
        """Returns the part of its score that a line keeps by how evenly it gained, if some line grew at each step."""
        return self.lines[number].evenness if self.some_are_steady else 1.0

    def _is_below(self, lower: int, upper: int) -> bool:
        """Tests whether a line is below another one: of two that hold nearly the same, that which holds less."""
        return lower != upper and self.lines[lower].heap <= self.lines[upper].heap and self.holds(upper, lower)

    def _depth(self, number: int) -> Tuple[bool, int, str]:
        """Returns what the deepest line is the smallest by, among those with one score: a thread, if none says more."""
        line = self.lines[number]
        return says(line) == 0 and not line.is_thread, line.heap, line.name


def by_share(found: Iterable[Retained], share: Callable[[Sequence[Candidate]], float]) -> List[Retained]:
    """Returns what `holders` found, which asks for all that has a share: the largest first, as it is shown; of one
    share that with the fewest instances, own classes, fields before threads, and what holds most of the heap."""

    def key(held: Retained) -> Tuple[int, int, bool, bool, int]:
        is_thread = all(each.kind in (THREAD, THREADS) for each in held.candidates)
        return -round(share(held.candidates)), held.instances, not held.is_own, is_thread, -held.heap.bytes

    return sorted(found, key=key)
