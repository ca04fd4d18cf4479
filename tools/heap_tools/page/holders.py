"""The section of what holds the growth: the holders, the objects and threads among them, what the first one holds, and
what to do next."""

from heap_tools.page.classes import contents_table
from heap_tools.page.model import HolderEntry, Leak, Limits, ThreadGroupEntry
from heap_tools.page.names import kind_of, names_of, path_row, thread_name
from heap_tools.page.objects import frames, object_table
from heap_tools.page.sections import Section, next_steps
from heap_tools.page.tables import body, left_out, share, table
from heap_tools.page.templates import Html, fill, joined
from heap_tools.page.top import is_less, whole_words
from heap_tools.page.words import change_of, figure, from_to, percent, with_sign


def holders(leak: Leak, limits: Limits) -> Section:
    """Returns the section of what holds the growth."""
    parts = [fill("paragraph", text="No field, local variable or thread alone holds much of what grew.")]
    if leak.holders:
        parts = [holder_table(leak, limits), object_table(leak.objects, limits), contents_table(leak, limits)]
    parts += [thread_table(leak, limits), next_steps(leak.next_steps)]
    return Section("holders", "What holds it", "What holds what grew", joined(filter(None, parts), "\n"))


def holder_table(leak: Leak, limits: Limits) -> Html:
    """Returns the table of what holds the growth."""
    shown, of_whole = leak.holders[: limits.holders], f"Of {whole_words(leak)}"
    rows = (holder_row(line, it, of_whole, limits) for line, it in enumerate(shown, 1))
    heads = {"Held by": "name", "Instances": "number", "Objects": "number", "Bytes": "number"}
    heads.update({"Of the growth": "shares", of_whole: "number"})
    parts = [fill("about", text=about(leak)), table("holders", "What holds what grew", heads, rows)]
    return joined([*parts, left_out(len(leak.holders) - len(shown), "row")], "\n")


def about(leak: Leak) -> str:
    """Returns what the table of holders has."""
    growth, rise = (with_sign(leak.by.of(each), leak.by) for each in (leak.growth, leak.rise))
    texts = [
        f"Without one of these, much of what grew would be unreachable. {what_lines_are(leak.shows_all)} The growth is "
        f"{growth} of {leak.whole}."
    ]
    if is_less(leak):
        of_heap = f"That of the heap is {rise}: what" if growth != rise else "What"
        calls = " or running calls" * (not leak.counts_calls)
        texts.append(f"{of_heap} only weak references{calls} hold does not count.")
    return " ".join(texts)


def what_lines_are(shows_all: bool) -> str:
    """Returns what the lines after the first are."""
    if shows_all:
        return "Line 1 is the answer; the others are above, below or beside it."
    return "Line 1 is the answer; each other line holds most of what those above it do not."


def holder_row(line: int, it: HolderEntry, of_whole: str, limits: Limits) -> Html:
    """Returns the row of a holder, which is the line of this number."""
    before, after = it.before.amount, it.after.amount
    return fill(
        "holder_row",
        line=line,
        kind=kind_of(it.fields),
        name=names_of(it.fields, limits),
        path=path_row(it.above, 6, limits, it.elements),
        instances=instance_count(it),
        objects=change_of(before.objects, after.objects, "object"),
        bytes=change_of(before.bytes, after.bytes, "byte"),
        of_growth=share(it.share, "growth"),
        whole=of_whole,
        of_whole=from_to(percent(it.before.percent), percent(it.after.percent)),
    )


def instance_count(it: HolderEntry) -> Html:
    """Returns the number of instances, and that of the first dump if it was another one."""
    now = figure(it.instances, "instance")
    if it.instances_before in (None, it.instances):
        return now
    return from_to(figure(it.instances_before or 0, "instance"), now)


def thread_table(leak: Leak, limits: Limits) -> Html:
    """Returns the table of the threads of which there are more, if these are known."""
    if not leak.threads:
        return Html()
    shown = leak.threads[: limits.holders]
    heads = {"Threads": "name", "Before": "number", "Now": "number", "More": "number", "In": "name"}
    rows = body(thread_row(it, limits) for it in shown)
    parts = [fill("subhead", text="Threads by name"), table("threads", "The threads by name", heads, [rows])]
    return joined([*parts, left_out(len(leak.threads) - len(shown), "row")], "\n")


def thread_row(it: ThreadGroupEntry, limits: Limits) -> Html:
    """Returns the row of the threads of a name."""
    return fill(
        "thread_row",
        name=thread_name(it.pattern, limits),
        before=figure(it.before, "thread"),
        now=figure(it.now, "thread"),
        more=figure(it.now - it.before, "thread", is_difference=True),
        frames=frames(it.frames, limits) if it.frames else "not known",
    )
