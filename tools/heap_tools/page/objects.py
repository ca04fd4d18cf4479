"""What both pages have on objects and threads: which of many objects hold most, and the methods of a thread."""

from typing import Dict, Optional, Sequence

from heap_tools import humanize
from heap_tools.page.model import Limits, NameEntry, ObjectEntry
from heap_tools.page.names import breakable, field_name, kind_of, name_of
from heap_tools.page.tables import body, left_out, share, table
from heap_tools.page.templates import Html, fill, joined, plain
from heap_tools.page.words import figure


def object_table(objects: Sequence[ObjectEntry], limits: Limits) -> Html:
    """Returns the table of the objects that have the field of a line, if these are known."""
    if not objects:
        return Html()
    shown = objects[: limits.holders]
    verb = "gained" if shown[0].has_gained else "hold"
    about = (
        f"Of the objects that have the field of a line, these {verb} most by it. Bytes are what each holds by it now, "
        f"shares are of what all of them {verb}."
    )
    heads = {"Object": "name", "Field of": "of-line", "Bytes": "number", "Share of the line": "shares"}
    parts = [fill("subhead", text="Which objects"), fill("about", text=about)]
    rows = body(object_row(it, limits) for it in shown)
    parts.append(table("objects", "The objects that hold most", heads, [rows]))
    return joined([*parts, left_out(len(objects) - len(shown), "row")], "\n")


def object_row(it: ObjectEntry, limits: Limits) -> Html:
    """Returns the row of an object."""
    of = joined([kind_of([it.field]), " ", field_name(it.field, limits)]) if it.field else Html(f"line {it.line}")
    parts: Dict[str, object] = {"name": name_of(it.class_name, limits.name), "of": of}
    parts["names"] = names_of_object(it.names, limits)
    return fill("object_row", bytes=figure(it.bytes, "byte"), share=share(it.percent, "part"), **parts)


def names_of_object(names: Sequence[NameEntry], limits: Limits) -> Html:
    """Returns what names an object, a line each."""
    if not names:
        return Html()
    items = joined(fill("item", text=object_name(it, limits)) for it in names[: limits.steps])
    return fill("object_names", names=items)


def object_name(it: NameEntry, limits: Limits) -> Html:
    """Returns what names an object. A static field without a text is one that leads to it."""
    how = breakable(plain(f"in {it.how}" if it.how.startswith("static ") else it.how, limits.name))
    return joined([how, fill("own_name", text=plain(it.text, limits.name))], " ") if it.text else how


def frames(methods: Sequence[str], limits: Limits, own: Optional[int] = None) -> Html:
    """Returns the methods that a thread is in, the innermost first. The one at `own` is the first of an own class: it
    is shown, however deep it is."""
    first = 0 if own is None or own < limits.steps else own - 1
    shown = [breakable(plain(each, limits.name)) for each in methods[first : first + limits.steps]]
    kinds = ["own_frame" if at == own else "item" for at in range(first, first + len(shown))]
    items = [fill(kind, text=each) for kind, each in zip(kinds, shown)]
    if first:
        items.insert(0, fill("item", text=f"{humanize.counted(first, 'method')} more"))
    return fill("frames", frames=joined(items, " "))
