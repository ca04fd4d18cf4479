"""The section of what a heap is made of: a picture, and a table of the same."""

from typing import Iterator, Mapping, Sequence

from heap_tools import humanize
from heap_tools.page.model import Limits, ShareEntry
from heap_tools.page.names import breakable, name_of, names_of
from heap_tools.page.sections import Section
from heap_tools.page.tables import amount_cells, table
from heap_tools.page.templates import Html, fill, joined, plain
from heap_tools.page.treemap import Group, Part, groups_of, total_of
from heap_tools.page.treemap_picture import colours_of, name_in_full, treemap
from heap_tools.reports import Amount

#: What the colours of the picture are.
COLOURS = "Grey and blue are the JDK and arrays of numbers; the other colours are the program and its libraries."
BY_PACKAGE = f"Each colour is a package, and each box a class, as large as its bytes. {COLOURS}"
BY_HOLDER = (
    "Each box is a class, as large as its bytes. Red is what a line above holds, with all of its arrays; what no line "
    f"holds is by package. {COLOURS}"
)


def made_of(
    classes: Mapping[str, Amount],
    which: str,
    limits: Limits,
    place: str = "last",
    every: str = "All reachable",
    shares: Sequence[ShareEntry] = (),
) -> Section:
    """Returns the section of what a heap is made of. `which`: the words for the heap, such as `the last heap`; `place`:
    what the section is called in an address; `every`: what all `classes` together are called. `shares`: parts of it by
    what holds them."""
    whole = total_of(classes.values())
    groups, total = groups_of(classes, limits.groups, limits.parts, shares), max(1, whole.bytes)
    head, label = f"What {which} is made of", f"{which[0].upper()}{which[1:]}"
    if not groups:
        text = "The dump has no reachable objects."
        return Section(place, label, head, fill("paragraph", text=text))
    number, colours = humanize.counted(len(classes), "class"), colours_of(groups)
    is_by_holder = any(group.fields for group in groups)
    caption = f"{number}. {BY_HOLDER if is_by_holder else BY_PACKAGE}"
    picture = fill("figure_of", picture=treemap(groups, place), caption=caption) if whole.bytes else Html()
    about = fill("about", text="The same as a table. Small packages and classes are added together.")
    heads = {
        "Part of the heap" if is_by_holder else "Package and class": "name",
        "Objects": "number",
        "Bytes": "number",
        "Share of the heap": "shares",
    }
    parts = [group_rows(colour, it, total, limits) for colour, it in zip(colours, groups)]
    parts.append(fill("total", name=every, cells=amount_cells(whole, total)))
    rows = table("last", f"{label} by package and class", heads, parts, place)
    return Section(place, label, head, joined([picture, about, rows], "\n"))


def group_rows(colour: str, group: Group, total: int, limits: Limits) -> Html:
    """Returns the rows of a package, or of what something holds."""
    rows = joined(rows_within(group, "", total, limits), "\n")
    cells = amount_cells(group.amount, total)
    return fill("last_group", colour=colour, name=name_of_group(group, limits), rows=rows, cells=cells)


def name_of_group(group: Group, limits: Limits) -> Html:
    """Returns the name of a package, or of what holds something."""
    if group.fields:
        return fill("held_name", name=names_of(group.fields, limits))
    return breakable(plain(group.name or "other packages", limits.name))


def rows_within(group: Group, kind: str, total: int, limits: Limits) -> Iterator[Html]:
    """Yields the rows of what is in a group: of its classes, then of the groups in it, each followed by its own, which
    are of the kind `inner`."""
    for part in group.parts:
        yield row_of(class_name(part, limits), part.amount, kind, total)
    for each in group.groups:
        yield row_of(name_of_group(each, limits), each.amount, "within", total)
        yield from rows_within(each, "inner", total, limits)


def row_of(name: Html, amount: Amount, kind: str, total: int) -> Html:
    """Returns a row of the table."""
    style = Html(f' class="{kind}"') if kind else Html()
    return fill("last_row", kind=style, name=name, cells=amount_cells(amount, total))


def class_name(part: Part, limits: Limits) -> Html:
    """Returns the name of a class, or how many small ones there are."""
    return name_of(part.name, limits.name) if part.name else Html(name_in_full(part))
