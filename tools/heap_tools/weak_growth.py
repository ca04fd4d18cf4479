"""What grew and is held by soft, weak, final or phantom references alone: it is not reachable if these are cut."""

from typing import List, NamedTuple, Optional, Sequence, Tuple, Union

from heap_tools.dump_runs import DumpRuns
from heap_tools.humanize import counted, more_are, size
from heap_tools.reports import Amount, Report, Unit
from heap_tools.weak_kinds import WeakKind, handler_words, usual_class
from heap_tools.what_counts import Way, Weak, WhatCounts, grown

#: The share of the growth, in percent, from which on it is said what is held by weak references alone.
MUCH_WEAKLY_HELD = 5


class Followed(NamedTuple):
    """Which weak references are followed. `amount`: what is held more by those alone that are not. `why`: a sentence on
    it, if not the user wants it."""

    follows: Union[Weak, WeakKind] = Weak.NONE
    amount: Amount = Amount()
    why: str = ""

    @property
    def is_any(self) -> bool:
        """Tests whether some are followed."""
        return self.follows is not Weak.NONE


def followed_of(
    counts: WhatCounts, families: Optional[List[str]], unit: Unit, wants_all: bool = False
) -> Tuple[Followed, List[Report]]:
    """Returns which weak references are to be followed in the first and the last of some dumps, or in one, and their
    reports with these: all if the user wants that, else those of a kind that alone hold most of what grew then, or of
    what is reachable in one dump. Soft ones never are by themselves: what they hold is a cache."""
    if wants_all:
        return Followed(Weak.ALL), counts.reports(Way(Weak.ALL))
    dumps, cut = counts.dumps, counts.reports(Way())
    growth = grown(cut, families, unit)
    whole = weak_growth(cut, counts.reports(Way(Weak.ALL)), families)
    if not is_most(unit.of(whole), growth):
        return Followed(amount=whole), cut
    best = Followed(amount=whole)
    for kind in (WeakKind.FINAL, WeakKind.PHANTOM, WeakKind.WEAK):
        amount = weak_growth(cut, counts.reports(Way(kind)), families)
        if is_most(unit.of(amount), growth) and (not best.is_any or unit.of(amount) > unit.of(best.amount)):
            best = Followed(kind, amount)
    if isinstance(best.follows, WeakKind):
        best = Followed(best.follows, why=why_followed(best.follows, best.amount, dumps))
    return best, counts.reports(Way(best.follows))


def is_most(part: int, rest: int) -> bool:
    """Tests whether a part is most of what grew, if all else grew by `rest`, or shrank if that is below 0."""
    return part + rest > 0 and part > rest and part > 0


def weak_growth(cut: Sequence[Report], followed: Sequence[Report], families: Optional[List[str]]) -> Amount:
    """Returns how much more of these families, or of all if they are None, only weak references hold in the last dump
    than in the first, or in one dump at all: `cut` are the reports without such references, `followed` those with
    them."""
    *before, last = (weak.total(families).minus(less.total(families)) for less, weak in zip(cut, followed))
    return last.minus(*before[:1] or [Amount()])


def why_followed(kind: WeakKind, amount: Amount, runs: Sequence[DumpRuns]) -> str:
    """Returns in words that references of a kind are followed, which hold this amount, of which class most are, and
    where the thread is blocked that handles them."""
    dump, is_growth = runs[-1].dump, len(runs) > 1
    of_class, blocked = usual_class(dump, kind), handler_words(dump, kind)
    are = more_are(*amount) if is_growth else f"{counted(amount.objects, 'object')}, {size(amount.bytes)} are"
    held = f"{are} held by {kind.noun} references alone, most of them {of_class}"
    return f"{held}{blocked}: most of {'the growth' if is_growth else 'the heap'}; so these references are followed"
