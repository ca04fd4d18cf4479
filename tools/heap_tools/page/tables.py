"""Parts that several sections of the page have: tables, bars, shares, and lines on what is not shown."""

from typing import Dict, Iterable, Optional

from heap_tools import humanize
from heap_tools.page.templates import Html, fill, joined
from heap_tools.page.words import figure, percent
from heap_tools.reports import Amount


def bar(number: float, most: float, kind: str) -> Html:
    """Returns a bar as long as `number` is of `most`."""
    return fill("bar", kind=kind, length=f"{100 * max(0, min(number, most)) / max(1, most):.1f}")


def share(part: float, kind: str) -> Html:
    """Returns a percentage with its bar."""
    return fill("share", bar=bar(part, 100, kind), percent=percent(part))


#: The tables that are wider than a window of middle width: there each row is a card.
WIDE = {"holders", "grown", "dumps"}


def table(kind: str, caption: str, heads: Dict[str, str], parts: Iterable[Html], place: Optional[str] = None) -> Html:
    """Returns a table of this kind. `heads`: the heads of its columns, each the kind of the column by its text.
    `place`: what it is called in an address, if that is not its kind."""
    shown = joined((fill("head", text=text, kind=of_column) for text, of_column in heads.items()), "\n")
    words = {"kind": f"{kind} cards" if kind in WIDE else kind, "place": place or kind, "caption": caption}
    return fill("table", heads=shown, body=joined(parts, "\n"), **words)


def body(rows: Iterable[Html]) -> Html:
    """Returns the rows of a table as its body."""
    return fill("body", rows=joined(rows, "\n"))


def left_out(number: int, noun: str, which: str = "more") -> Html:
    """Returns a line that says how many rows are not shown, and which these are."""
    return fill("paragraph", text=f"Not shown: {humanize.counted(number, noun)} {which}.") if number > 0 else Html()


def amount_cells(amount: Amount, total: int) -> Html:
    """Returns the cells of an amount, and of its share in percent of `total` bytes."""
    of_total = share(100 * amount.bytes / total, "part")
    return fill(
        "amount_cells", objects=figure(amount.objects, "object"), bytes=figure(amount.bytes, "byte"), share=of_total
    )
