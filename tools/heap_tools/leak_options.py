"""What a user asks of `leaks`."""

from typing import NamedTuple, Optional

from heap_tools.reports import Unit


class Bounds(NamedTuple):
    """From which share of all that is asked for on, in percent, the first line is shown, and from which on each other
    one; how many lines at most; and whether all that holds the first share is shown, also above other lines and below
    them."""

    first: int = 30
    others: int = 10
    top: int = 4
    shows_all: bool = False


class Options(NamedTuple):
    """Of which class it is asked or of all, in which unit, which lines are shown, whether weak references are followed,
    whether texts of the dump are shown, whether bytes are those of the dump, and of how many bytes a growth is not
    asked for, or None if of each."""

    of_class: Optional[str] = None
    unit: Unit = Unit.BYTES
    bounds: Bounds = Bounds()
    weak: bool = False
    shows_values: bool = True
    dump_bytes: bool = False
    more_than: Optional[int] = None
