"""The page of two or more dumps: what holds what grew between them."""

from heap_tools.page.chart import chart
from heap_tools.page.classes import grown_classes
from heap_tools.page.holders import holders
from heap_tools.page.made_of import made_of
from heap_tools.page.model import Leak, Limits
from heap_tools.page.sections import Section, making, omitted, terms, what_bytes_are, whole_page
from heap_tools.page.templates import Html, fill, joined
from heap_tools.page.top import tiles, top


def heap(leak: Leak, limits: Limits) -> Section:
    """Returns the section of the heap over the dumps: figures, and the chart beside them."""
    beside = fill("beside", tiles=tiles(leak), picture=chart(leak, limits))
    return Section(
        "heap", "Heap", "The heap over the dumps", joined([beside, what_bytes_are(leak.layout, limits)], "\n")
    )


def page_of_dumps(leak: Leak, limits: Limits) -> Html:
    """Returns the page."""
    sections = [
        heap(leak, limits),
        holders(leak, limits),
        grown_classes(leak, limits),
        made_of(leak.last, "the last heap", limits, shares=leak.shares),
        omitted(leak.omitted, leak.dumps, leak.layout, limits),
        terms(),
        making(leak.making, leak.dumps, limits),
    ]
    return whole_page(top(leak, limits), sections, leak.making.time, bool(leak.layout))
