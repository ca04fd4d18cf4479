"""What both pages have: the frame of a page, what was dumped, notes, what dumps do not show, how the page was made."""

from typing import Dict, Iterable, List, NamedTuple, Optional, Sequence

from heap_tools import humanize
from heap_tools.omissions import NEVER_SHOWN, SIZES, unreachable_on_page
from heap_tools.page.model import DumpEntry, Limits, Making, NextStep, ProgramEntry
from heap_tools.page.names import breakable, name_of
from heap_tools.page.tables import body, table
from heap_tools.page.templates import FOLDER, LONGEST_SENTENCE, Html, fill, joined, plain, visible
from heap_tools.page.words import figure, when


#: What is said of bytes that are not those of the dumps.
HEAP_BYTES = "Bytes are those of the heap: counts times sizes that were found in the dump, which is only tested. "


class Section(NamedTuple):
    """A section of a page: its place in an address, what the list of sections calls it, its head, and what is in it."""

    id: str
    label: str
    head: str
    body: Html


class Top(NamedTuple):
    """The top of a page: the title, which a browser shows in its tab, what was dumped, the headline, the path to what
    it names, what is said first, what else is to be known, and the tool that made the page."""

    title: str
    facts: Html
    headline: Html
    through: Html
    lead: Html
    notes: Html
    tool: str = "leaks"


def whole_page(top: Top, sections: Sequence[Section], made: int, has_heap_bytes: bool, tested: str = "") -> Html:
    """Returns a page that was made at the time `made`. `has_heap_bytes`: its bytes are not those of the dumps.
    `tested`: a sentence on what else is no figure of heapmark."""
    links = (fill("nav", id=section.id, label=section.label) for section in sections)
    shown = (fill("section", id=section.id, head=section.head, body=section.body) for section in sections)
    return fill(
        "page",
        style=Html((FOLDER / "page.css").read_text(encoding="utf-8").strip()),
        nav=joined(links, "\n"),
        sections=joined(shown, "\n"),
        made=when(made),
        tested=tested + HEAP_BYTES * has_heap_bytes,
        **top._asdict(),
    )


def facts(program: ProgramEntry, taken: Html, limits: Limits) -> Html:
    """Returns what was dumped, and when, as far as the dumps say."""
    values: Dict[str, object] = {
        "Program": program.name and name_of(program.name, limits.name),
        "Process": program.process,
        "Virtual machine": program.machine and plain(program.machine, limits.name),
        "Taken": taken,
    }
    shown = (fill("fact", name=name, value=value) for name, value in values.items() if value)
    return joined(shown, "\n")


def notes(sentences: Iterable[Optional[str]], limits: Limits) -> Html:
    """Returns what else is to be known, each as a note."""
    shown = [plain(each, 3 * limits.name) for each in sentences if each][: limits.sentences]
    return joined((fill("note", text=each) for each in shown), "\n")


def what_bytes_are(layout: Optional[str], limits: Limits) -> Html:
    """Returns what bytes are, if they are not those of the dumps."""
    return fill("about", text=plain(layout, 3 * limits.name)) if layout else Html()


def next_steps(steps: Sequence[NextStep]) -> Html:
    """Returns the commands that say more. One that cannot be shown as it is cannot be pasted, and is not shown."""
    shown = [it for it in steps if is_pasted(it)]
    if not shown:
        return Html()
    listed = joined((fill("next_step", purpose=it.purpose, command=it.command) for it in shown), "\n")
    return fill("next_steps", steps=listed)


def is_pasted(step: NextStep) -> bool:
    """Tests whether a command is the same when it is pasted."""
    return len(step.command) <= LONGEST_SENTENCE and visible(step.command) == step.command


def omitted(sentences: Sequence[str], dumps: Sequence[DumpEntry], layout: Optional[str], limits: Limits) -> Section:
    """Returns what the dumps do not show: these ones first, then all. `layout` says what bytes are, if they are not
    those of the dumps."""
    shown = [plain(sentence, 3 * limits.name) for sentence in sentences[: limits.sentences]]
    unreachable = dumps[-1].unreachable.objects
    if unreachable > 0 and not any("unreachable" in each for each in shown):
        shown.append(unreachable_on_page(unreachable, "the last dump" if len(dumps) > 1 else "the dump"))
    shown += NEVER_SHOWN if layout else [*NEVER_SHOWN, SIZES]
    items = joined((fill("item", text=sentence) for sentence in shown), "\n")
    return Section("omitted", "Not shown", "What dumps do not show", fill("list", items=items))


def terms() -> Section:
    """Returns the terms of the field that the page has."""
    return Section("terms", "Terms", "Terms", fill("terms"))


def making(made: Making, dumps: Sequence[DumpEntry], limits: Limits) -> Section:
    """Returns how the page was made."""
    took = humanize.duration(1000 * made.seconds)
    versions = [[plain(text, limits.name) for text in version] for version in made.versions[: limits.sentences]]
    shown = fill(
        "making",
        dumps=dump_table(dumps, limits),
        command=made.command,
        runs=f"heapmark ran {humanize.counted(made.runs, 'time')}, within {took} in all.",
        versions=joined((fill("version", name=name, version=version) for name, version in versions), "\n"),
    )
    return Section("making", "How it was made", "How it was made", shown)


def dump_table(dumps: Sequence[DumpEntry], limits: Limits) -> Html:
    """Returns the table of the dumps, of many only the first and the last ones."""
    end = limits.dumps // 2
    gap = range(end, len(dumps) - end) if len(dumps) > limits.dumps else range(0)
    rows: List[Html] = [dump_row(dump, limits) for number, dump in enumerate(dumps) if number not in gap]
    if gap:
        rows.insert(end, fill("dump_gap", text=f"{humanize.counted(len(gap), 'dump')} more"))
    heads = {"File": "name", "Taken (UTC)": "time", "Size": "number"}
    for of in "Reachable", "Unreachable":
        heads.update({f"{of} objects": "number", f"{of} bytes": "number"})
    heads["Unresolved"] = "number"
    caption = "The dumps, the earliest first" if len(dumps) > 1 else "The dump"
    return table("dumps", caption, heads, [body(rows)])


def dump_row(dump: DumpEntry, limits: Limits) -> Html:
    """Returns the row of a dump."""
    return fill(
        "dump_row",
        file=fill("file_name", text=breakable(plain(dump.file, limits.name))),
        time=when(dump.time),
        size="not known" if dump.size is None else figure(dump.size, "byte"),
        objects=figure(dump.reachable.objects, "object"),
        bytes=figure(dump.reachable.bytes, "byte"),
        unreachable_objects=figure(dump.unreachable.objects, "object"),
        unreachable_bytes=figure(dump.unreachable.bytes, "byte"),
        unresolved=figure(dump.unresolved, "reference"),
    )
