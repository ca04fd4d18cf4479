"""Numbers and times of the page: in words, with their signs, and as HTML that has the exact number, too."""

import datetime
from typing import List, Optional, Sequence

from heap_tools import humanize
from heap_tools.page.templates import Html, fill, joined
from heap_tools.reports import Unit

EPOCH = datetime.datetime(1970, 1, 1)
#: The signs of a difference: above, below and at zero.
PLUS, MINUS, ZERO = "+", "−", "±"


def solid(text: str) -> str:
    """Returns `text` with blanks at which no line ends."""
    return text.replace(" ", "\u00a0")


def solid_size(number: int) -> str:
    """Returns a number of bytes in words, such as 41.2 MB."""
    return solid(humanize.size(number))


def solid_count(number: int, noun: str) -> str:
    """Returns a number with its noun."""
    return solid(humanize.counted(number, noun))


def bare(number: int, unit: Unit) -> str:
    """Returns a number of `unit` as short as can be: bytes in words, objects without their noun."""
    return solid_size(number) if unit is Unit.BYTES else f"{number:,}"


def full(number: int, unit: Unit) -> str:
    """Returns a number of `unit` in words: 41.2 MB, or 12 objects."""
    return solid_size(number) if unit is Unit.BYTES else solid_count(number, unit.noun)


def percent(share: float) -> str:
    """Returns a percentage, a whole one as on the terminal."""
    return "<1%" if 0 < share < 0.5 else f"{share:,.0f}%"


def sign_of(number: float) -> str:
    """Returns the sign of a difference."""
    return PLUS if number > 0 else MINUS if number < 0 else ZERO


def with_sign(number: int, unit: Unit) -> str:
    """Returns a difference with its sign, in words."""
    return sign_of(number) + full(abs(number), unit)


def percent_more(before: int, after: int) -> str:
    """Returns by how many percent `after` is more than `before`, which is above 0, with the sign."""
    change = 100 * (after - before) / before
    return sign_of(change) + percent(abs(change))


def moment(milliseconds: Optional[int]) -> Optional[datetime.datetime]:
    """Returns a time of a dump, or `None` if there is none or if it lies after the year 9999."""
    try:
        return None if milliseconds is None else EPOCH + datetime.timedelta(milliseconds=milliseconds)
    except OverflowError:
        return None


def when(milliseconds: Optional[int], form: str = "%Y-%m-%d %H:%M") -> Html:
    """Returns a time, to the minute in UTC."""
    time = moment(milliseconds)
    if time is None:
        return Html("not known")
    return fill("time", exact=time.isoformat(timespec="seconds") + "Z", shown=time.strftime(form))


def clock(times: Sequence[Optional[int]]) -> List[str]:
    """Returns the times of dumps as a chart shows them: without the day if that is the same for all."""
    moments = [moment(time) for time in times]
    days = {time and time.date() for time in moments}
    form = "%H:%M:%S" if len(days) == 1 else "%Y-%m-%d %H:%M"
    return [f"dump {number}" if time is None else time.strftime(form) for number, time in enumerate(moments, 1)]


def period(first: Optional[int], last: Optional[int]) -> Html:
    """Returns from when to when dumps were taken, empty if that is not known."""
    begin, end = moment(first), moment(last)
    if begin is None or end is None:
        return Html()
    if end - begin < datetime.timedelta(minutes=1):
        return joined([when(first), " UTC"])
    until = when(last, "%H:%M" if begin.date() == end.date() else "%Y-%m-%d %H:%M")
    return joined([when(first), " to ", until, " UTC"])


def figure(number: int, noun: str, is_difference: bool = False) -> Html:
    """Returns a number of things, such as `byte`, with the exact one beside it."""
    sign = sign_of(number) if is_difference else ""
    size = abs(number) if is_difference else number
    shown = solid_size(size) if noun == Unit.BYTES.noun else f"{size:,}"
    return fill("figure", value=number, exact=sign + solid_count(size, noun), shown=sign + shown)


def figure_in(number: int, unit: Unit, is_difference: bool = False) -> Html:
    """Returns a number of `unit` as a figure, objects with their noun."""
    shown = figure(number, unit.noun, is_difference)
    return shown if unit is Unit.BYTES else joined([shown, f"\u00a0{humanize.plural(number, unit.noun)}"])


def from_to(first: str, last: str) -> Html:
    """Returns what there was first, and what at last."""
    return fill("from_to", first=first, last=last)


def change_of(first: int, last: int, noun: str) -> Html:
    """Returns what there was first and at last, and the difference."""
    growth = figure(last - first, noun, is_difference=True)
    return fill("from_to_grown", first=figure(first, noun), last=figure(last, noun), growth=growth)
