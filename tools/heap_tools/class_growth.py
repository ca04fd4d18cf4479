"""How classes grew between reports, and the lines that show it."""

import sys
from typing import List, NamedTuple, Optional, Sequence

from heap_tools.console import is_terminal
from heap_tools.reports import Amount, Report, Unit


class ClassGrowth(NamedTuple):
    """How a class grew from the first report to the last, and at each step in the unit that counts."""

    name: str
    amount: Amount
    steps: List[int]


def growths(reports: Sequence[Report], unit: Unit = Unit.OBJECTS, more_than: Optional[int] = None) -> List[ClassGrowth]:
    """Returns how each class grew. Classes that grew at each step come first, then the largest growth in `unit`, then
    the largest in the other unit. `more_than`: only the classes that grew by more than that many objects."""
    names = {name for report in reports for name in report.families}
    found = [growth_of(name, reports, unit) for name in names]
    if more_than is None:
        found = [each for each in found if max(each.amount) > 0]
    else:
        found = [each for each in found if each.amount.objects > more_than]
    return sorted(found, key=lambda it: (min(it.steps) <= 0, -unit.of(it.amount), -unit.other.of(it.amount), it.name))


def growth_of(name: str, reports: Sequence[Report], unit: Unit) -> ClassGrowth:
    """Returns how the class `name` grew."""
    series = [report.amount(name) for report in reports]
    steps = [unit.of(after.minus(before)) for before, after in zip(series, series[1:])]
    return ClassGrowth(name, series[-1].minus(series[0]), steps)


def lines_to_print(
    found: Sequence[ClassGrowth], unit: Unit = Unit.OBJECTS, hours: Optional[float] = None, bytes_head: str = "bytes"
) -> str:
    """Returns a line for each of `found`: with its steps if there are several, with its growth per hour if `hours` are
    given, and on a terminal with a bar, below the heads of the columns."""
    terminal = is_terminal(sys.stdout)
    lines = [heads(found, hours, bytes_head)] if terminal and found else []
    most = max((unit.of(it.amount) for it in found), default=0)
    for it in found:
        growth = unit.of(it.amount)
        line = f"{it.amount.objects:10} {it.amount.bytes:14}"
        if len(it.steps) > 1:
            line += "".join(f" {step:10}" for step in it.steps)
        if hours:
            line += f" {rate(growth / hours):>12}"
        if terminal:
            line += "  " + ("#" * round(10 * max(0, growth) / max(1, most))).ljust(10)
        lines.append(f"{line}  {it.name}\n")
    return "".join(lines)


def rate(per_hour: float) -> str:
    """Spells a growth per hour: without decimals, unless it is below 10."""
    return f"{per_hour:.0f}" if abs(per_hour) >= 10 or per_hour == int(per_hour) else f"{per_hour:.1f}"


def heads(found: Sequence[ClassGrowth], hours: Optional[float], bytes_head: str = "bytes") -> str:
    """Returns the heads of the columns."""
    line = f"{'objects':>10} {bytes_head:>14}"
    if len(found[0].steps) > 1:
        line += "".join(f" {f'step {number}':>10}" for number in range(1, len(found[0].steps) + 1))
    if hours:
        line += f" {'per hour':>12}"
    return f"{line}  {'':10}  class\n"
