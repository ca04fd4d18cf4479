"""Names as HTML: of classes, methods, fields and threads, and of the paths that fields are."""

import html
import re
from dataclasses import dataclass
from typing import List, Sequence

from heap_tools import class_names
from heap_tools.candidates import FIELD, LOCAL, MACHINE_ROOT, STATIC, THREAD, THREADS
from heap_tools.page.model import FieldEntry, Limits, StepEntry
from heap_tools.page.templates import Html, escaped, fill, joined, plain
from heap_tools.thread_counts import NAMELESS

#: How many fields are named that lead somewhere only together.
SHOWN_TOGETHER = 4


@dataclass(frozen=True)
class KindWords:
    """The words for a kind of what holds: for one, for several, and the verb for one."""

    one: str
    several: str
    verb: str


KINDS = {
    STATIC: KindWords("static field", "static fields", "holds"),
    FIELD: KindWords("field", "fields", "holds"),
    LOCAL: KindWords("local variables of", "local variables of", "hold"),
    THREAD: KindWords("thread", "threads", "holds"),
    THREADS: KindWords("threads", "threads", "hold"),
    MACHINE_ROOT: KindWords("root", "roots", "holds"),
}


def in_java(name: str) -> str:
    """Returns the name of a class as Java spells it: that of an array with its brackets at the end."""
    depth, element = len(name) - len(name.lstrip("[")), class_names.element(name)
    if element == name:
        element = class_names.PRIMITIVES.get(name[depth:], "")
    return element + "[]" * depth if depth and element else name


def pieces_of(text: str) -> List[str]:
    """Returns the pieces between which a name may be broken into lines: its words, and what ends with a mark."""
    return re.split(r"(?<=[/.$_,])(?=[^/.$_,])|(?<=[a-z])(?=[A-Z])", text)


def breakable(text: str) -> Html:
    """Returns `text` as HTML that may be broken into lines between its pieces."""
    return joined((html.escape(piece) for piece in pieces_of(text)), "<wbr>")


def name_of(text: str, longest: int) -> Html:
    """Returns a name of Java: of a class, a field or a method. Its package is less prominent."""
    text = plain(in_java(text), longest)
    at = text.rfind("/") + 1
    return fill("name", package=breakable(text[:at]), rest=breakable(text[at:]))


def thread_name(name: str, limits: Limits) -> Html:
    """Returns the name of a thread, or the pattern of such names, in quotes; in words if there is none."""
    return fill("plain_name", text=f'"{plain(name, limits.name)}"') if name else escaped(NAMELESS)


def thread_words(name: str) -> str:
    """Returns a thread with its name in words, with a capital."""
    return f'Thread "{name}"' if name else f"A thread {NAMELESS}"


def field_name(field: FieldEntry, limits: Limits) -> Html:
    """Returns the name of what holds: of a thread in quotes, of all else as a name of Java."""
    if field.kind == THREADS and not field.name:
        return escaped("of all names")
    if field.kind == MACHINE_ROOT:
        return escaped("of the virtual machine")
    if field.kind in (THREAD, THREADS):
        return thread_name(field.name, limits)
    return name_of(field.name, limits.name)


def kind_of(fields: Sequence[FieldEntry]) -> str:
    """Returns what fields are in a word: `together` if they hold something only so."""
    kinds = {field.kind for field in fields}
    if len(kinds) > 1:
        return "together"
    words = KINDS[fields[0].kind]
    if len(fields) > 1:
        return f"{words.several.replace(' of', '')} together"
    return "local variable" if fields[0].kind == LOCAL else words.one


def names_of(fields: Sequence[FieldEntry], limits: Limits) -> Html:
    """Returns the names of fields, each with the word for its kind if they are of several."""
    is_mixed = len({field.kind for field in fields}) > 1
    shown: List[Html] = []
    for field in fields[: limits.steps]:
        words = f"{KINDS[field.kind].one} " if is_mixed else ""
        shown.append(joined([words, field_name(field, limits)]))
    if len(fields) > len(shown):
        shown.append(escaped(f"{len(fields) - len(shown):,} more"))
    return listed(shown)


def listed(parts: Sequence[Html]) -> Html:
    """Returns parts as a list in a sentence."""
    return joined([joined(parts[:-1], ", "), " and ", parts[-1]]) if len(parts) > 1 else joined(parts)


def subject_of(fields: Sequence[FieldEntry]) -> str:
    """Returns the words before the names of what holds, with a capital. Fields of several kinds have them by
    themselves."""
    if len({field.kind for field in fields}) > 1:
        return "Together"
    words = KINDS[fields[0].kind]
    return (words.several if len(fields) > 1 else words.one).capitalize()


def verb_of(fields: Sequence[FieldEntry]) -> str:
    """Returns the verb for what fields do."""
    if len(fields) > 1:
        return "hold" if len({field.kind for field in fields}) > 1 else "together hold"
    return KINDS[fields[0].kind].verb


def step_words(field: FieldEntry, longest: int) -> str:
    """Returns a field of a path in words, with at most `longest` characters of its name."""
    name = plain(field.name, longest)
    if field.kind == MACHINE_ROOT:
        return "the virtual machine"
    if field.kind in (THREAD, THREADS):
        return f'{field.kind} "{name}"' if name else f"{field.kind} {NAMELESS}"
    return name if field.kind == FIELD else f"{field.kind} {name}"


def names_in_words(fields: Sequence[FieldEntry], longest: int) -> str:
    """Returns the names of fields as plain text, for where no HTML can be, at most `longest` characters of each."""
    shown = [step_words(field, longest) for field in fields[:SHOWN_TOGETHER]]
    if len(fields) > len(shown):
        shown.append(f"{len(fields) - len(shown):,} more")
    return f"{', '.join(shown[:-1])} and {shown[-1]}" if len(shown) > 1 else "".join(shown)


def step_name(step: StepEntry, limits: Limits) -> Html:
    """Returns a step of a path: a field, the fields that lead there only together, or the first of some roots."""
    fields = step.fields
    number = len(fields) if len(fields) <= SHOWN_TOGETHER else SHOWN_TOGETHER - 1
    shown = [breakable(step_words(field, limits.name)) for field in fields[:number]]
    if len(fields) > number:
        shown.append(escaped(f"{len(fields) - number:,} more"))
    return joined([listed(shown), " together" if len(fields) > 1 else "", escaped(step.others)])


def shown_steps(above: Sequence[StepEntry], limits: Limits) -> List[StepEntry]:
    """Returns the steps of a path that are shown: the first ones, and the last."""
    return list(above) if len(above) <= limits.steps else [*above[: limits.steps - 1], above[-1]]


def path_to(above: Sequence[StepEntry], limits: Limits) -> Html:
    """Returns the fields above what holds, from the top down."""
    if not above:
        return Html()
    shown = shown_steps(above, limits)
    steps = [step_name(step, limits) for step in shown]
    if len(above) > len(shown):
        steps.insert(len(steps) - 1, escaped(f"{len(above) - len(shown)} more"))
    return fill("path", steps=joined((fill("item", text=step) for step in steps), " "))


def path_row(above: Sequence[StepEntry], columns: int, limits: Limits, elements: str = "") -> Html:
    """Returns the fields above what holds, and how many `elements` its containers have, as a row of a table with
    `columns` columns, below that of the name, which has no room for them."""
    parts = [path_to(above, limits)] if above else []
    if elements:
        parts.append(fill("elements", text=elements))
    return fill("path_row", columns=columns, path=joined(parts, " ")) if parts else Html()
