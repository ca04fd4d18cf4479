"""What the order of lines knows of each."""

from dataclasses import dataclass, field
from typing import List, Mapping, Optional, Sequence, Tuple

from heap_tools.candidates import THREAD, THREADS


@dataclass(frozen=True)
class Features:
    """What the order knows of a line. `kinds` are those of its candidates, of which several hold something together.
    `instances` have the field, `with_value` of them with a value in it; in the first dump these were `instances_before`
    and `with_value_before`. `amount` and `before` are what they hold and held, in the unit of the question. `heap` is
    the number of all objects that they hold, `gains` of how many objects they gained by class. `of_one` is the part of
    its gain that one object has, if that is most, `of_each` that of all objects which have all of several fields, each
    by its own ones, `of_elements` that of elements of the answer's container that were
    there before. `of_largest` is the part of `amount` that as many of the largest instances hold as came, None if it is
    not known: the most that new ones can hold. `evenness`: how evenly it gained over several dumps. `is_chain`: most of
    its instances have a value, and it holds most of them. `is_line`: it gained enough; else it only shows what was held
    before."""

    name: str
    kinds: Tuple[str, ...]
    is_own: bool
    is_collection: bool
    instances: int
    with_value: int
    instances_before: int
    with_value_before: int
    amount: int
    before: int
    heap: int
    gains: Mapping[str, int] = field(default_factory=dict)
    evenness: float = 1.0
    of_one: float = 0.0
    of_each: float = 0.0
    of_elements: float = 0.0
    of_largest: Optional[float] = None
    is_chain: bool = False
    is_line: bool = True

    @property
    def gain(self) -> int:
        """How much more is held than before."""
        return self.amount - self.before

    @property
    def grew_at_each_step(self) -> bool:
        """Tests whether more was held in each dump than in the one before."""
        return self.evenness > 0

    @property
    def part_came(self) -> float:
        """The part of the instances with a value that came, as far as counts show it: no more than of all instances,
        since a field that was null may have a value now, and no more than there are more with a value."""
        more = [1 - self.instances_before / self.instances, 1 - self.with_value_before / self.with_value]
        return max(0.0, min(more))

    @property
    def is_thread(self) -> bool:
        """Tests whether it is threads."""
        return all(kind in (THREAD, THREADS) for kind in self.kinds)


def evenness(amounts: Sequence[int], times: Sequence[int]) -> float:
    """Returns how evenly something gained over dumps that were made at these times: 1 if all steps are the same, 0 if
    one is no gain, else 1 less the part of the gain by which the largest step exceeds the smallest. A leak gains about
    as much with each request or in each hour: so steps count as they are or per time, whichever are more even."""
    steps, spans = steps_of(amounts), steps_of(times)
    if min(steps) <= 0:
        return 0.0
    counted: List[List[float]] = [[*steps]]
    if min(spans) > 0:
        counted.append([step / span for step, span in zip(steps, spans)])
    return max(1 - (max(each) - min(each)) / sum(each) for each in counted)


def steps_of(series: Sequence[int]) -> List[int]:
    """Returns how much more each number of a series is than the one before."""
    return [after - before for before, after in zip(series, series[1:])]
