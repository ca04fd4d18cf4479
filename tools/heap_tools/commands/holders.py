"""holders: which fields, static fields, local variables and threads hold the objects of a class in a dump."""

import sys
from argparse import Namespace
from typing import List, NamedTuple, NoReturn, Optional, Sequence

from heap_tools import command_line
from heap_tools.candidates import joint_name
from heap_tools.class_lookup import family_of
from heap_tools.class_objects import require_objects
from heap_tools.class_names import is_array
from heap_tools.command_line import Parser, number
from heap_tools.console import Progress, is_terminal, say, write
from heap_tools.documents import document, holders_fields
from heap_tools.dump_runs import DumpRuns
from heap_tools.dump_side import DumpSide
from heap_tools.faults import WRONG_USE, Fault
from heap_tools.heap_bytes import counted_in_heap
from heap_tools.heapmark import Heapmark
from heap_tools.humanize import counted
from heap_tools.leak_lines import find_joint
from heap_tools.line_order import by_share
from heap_tools.omissions import WHY_UNREACHABLE
from heap_tools.plain_dumps import is_dump
from heap_tools.probe import Probe, Retained
from heap_tools.reports import Unit
from heap_tools.search import Search
from heap_tools.what_counts import PASSING, Way, Weak, WhatCounts, without_running_calls

ABOUT = """
Shows what holds the objects of a class in a heap dump: for each field, static
field, local variable or thread without which many of them are unreachable, a
line with the number of these objects, their bytes, their share, the number of
instances that have the field, and the field. Without a class, it shows what
holds much of the whole heap.
"""
NOTES = """
A static field has one instance; those of a local variable are the threads in
its method. The largest share comes first, and of several with one share that
with the fewest instances: your own cache or queue, then the fields of the
containers in it; then own fields, threads, and fields of the JDK. Classes with
the same name are added together, and so are hidden classes, such as those of
lambdas, whose names differ only in a number and an address (`$1+0x..`). Then a
static field has one instance for each of these classes. So has one of classes
alike, `static A$$*.x`, whose names differ in numbers or hexadecimal digits: it
is tried if none of them holds enough alone. A line `together` names static
fields that hold the objects only together. The share is one of objects, that of
an array class and of the whole heap one of bytes. A line on standard error says
how much threads or the virtual machine hold without any static field.

One run of retained finds what each field, local variable and thread holds: what
is not reachable without it. Three lists hold only what is held anyway, and do
not count: the classes of a loader, the threads of a group, and the references
that are not in their queues yet.

Calls that are running do not count: their local variables lead into containers
that fields hold. So local variables lead nowhere if at most 5% of what is asked
for is lost by that; else those of methods of the JDK, if that loses no more.

No file is written. The heapmark that runs is what the variable HEAPMARK names,
else the one beside this tool, else the one built in this repository, else that
of PATH; retained is found likewise, by the variable RETAINED. If SIGINT,
SIGTERM or SIGHUP ends this tool, the exit status is 130.

Counts of objects are those of retained, which are proved for each dump. Bytes
are those of the heap, with headers and padding of objects: sizes --help says
how they are found, which is not proved.

What fills a heap, with the path to it, and what grew between two dumps: see
leaks. All that a field holds: see held.

Exit status:
  0  done: the fields, if any, were printed
  1  DUMP cannot be read or was refused; nothing was printed
  2  the command line is wrong
  3  no object of CLASS is reachable; nothing was printed
  4  the output cannot be written
  5  heapmark or retained cannot be run, or a run failed; nothing was printed
  6  no class of DUMP has the name CLASS; nothing was printed
  7  only soft, weak, final or phantom references hold the objects of CLASS;
     nothing was printed

Example:
  $ holders friday.hprof 'com/acme/Cache$Order'
"""
#: The share of unreachable bytes, in percent of the reachable ones, that a line says if no class is given.
MUCH_UNREACHABLE = 10


def parser() -> Parser:
    """Returns the options and operands."""
    it = Parser("holders", "[OPTIONS] <DUMP> [<CLASS>]", ABOUT, NOTES)
    it.operand("dump", "A heap dump, gzipped or not, in a plain file: it is read more than once")
    text = "A class as heapmark, grown or jmap shows it; without it, the bytes of the whole heap count"
    it.operand("class", text, nargs="?")
    text = "Show what holds P percent or more, 1 to 100 [default: 10, and 20 without CLASS]"
    it.option("--at-least", "P", text, type=number(1, 100))
    it.option("--top", "N", "Show at most N lines [default: 10]", type=number(1), default=10)
    it.flag("--bytes", "Take shares of bytes, not of objects")
    it.flag("--weak", "Follow soft, weak, final and phantom references, too")
    it.flag("--dump-bytes", "Count bytes as the dump has them, without headers and padding of objects")
    it.flag("--json", "Print all that lines and notes say as a JSON document")
    return it


class Found(NamedTuple):
    """What a search has found, in the order of the lines, of which the first `top` are shown; and what there is to say
    about the bytes."""

    search: Search
    lines: List[Retained]
    top: int
    bytes_words: str

    @property
    def shown(self) -> List[Retained]:
        """The lines that are shown."""
        return self.lines[: self.top]

    @property
    def hidden(self) -> int:
        """How many lines are not shown."""
        return len(self.lines) - len(self.shown)


def find_holders(options: Namespace, name: Optional[str]) -> Found:
    """Searches the dump, and returns what was found."""
    if name and is_dump(name):
        text = f"{name}: a file: leaks {options.dump} {name} shows what grew, and what holds it"
        raise Fault(WRONG_USE, text)
    heapmark, progress = Heapmark(), Progress("holders")
    progress.show("reading the dump")
    try:
        dumps = counted_in_heap([DumpRuns.of(heapmark, options.dump, "holders")], options.dump_bytes)
        runs = dumps.dump
        families = None if name is None else [family_of(name, runs.dump, runs.report)]
        in_bytes = options.bytes or not families or is_array(families[0])
        unit = Unit.BYTES if in_bytes else Unit.OBJECTS
        progress.show("asking what each field holds")
        probe = Probe(asked_side(runs, families, unit, options.weak), families, unit)
        search, statics = Search(probe, options.at_least or (10 if families else 20)), probe.candidates.statics()
        search.find()
        find_joint(search, [each for each in statics if not each.is_of_machine], statics)
    finally:
        progress.clear()
    return Found(search, by_share(search.found, probe.share), options.top, dumps.words)


def asked_side(runs: DumpRuns, families: Optional[List[str]], unit: Unit, follows_weak: bool) -> DumpSide:
    """Returns a dump as it is asked: without running calls, if these hold little. Raises `Fault` if the user asks for a
    class of which no object is reachable."""
    counts, follows = WhatCounts([runs]), Weak.ALL if follows_weak else Weak.NONE
    way = None if follows_weak else counts.usual_way(families, unit, PASSING)
    if way is None:
        (base,) = counts.reports(Way(follows))
        if families:
            require_objects(families[0], runs, base)
        way = without_running_calls(counts, follows, [base], families, unit, unit.of(base.total(families)))
    (side,) = counts.sides(way)
    return side


def holder_lines(found: Found) -> str:
    """Returns a line for each holder that is shown, on a terminal below the heads of the columns."""
    lines = []
    if is_terminal(sys.stdout) and found.shown:
        unit = found.search.probe.runs.report.bytes_head
        lines.append(f"{'objects':>10} {unit:>14} share instances  field\n")
    for held in found.shown:
        share, amount = found.search.probe.share(held.candidates), held.amount
        line = (
            f"{amount.objects:10} {amount.bytes:14} {share:4.0f}% {held.instances:9}  {joint_name(held.candidates)}\n"
        )
        lines.append(line)
    return "".join(lines)


def why_none(search: Search) -> str:
    """Returns why nothing was found, if that is known, or which option may help."""
    candidates, probe = search.probe.candidates, search.probe
    every = [*candidates.statics(), candidates.all_threads(), *candidates.every_field()]
    if probe.whole.objects and probe.retained(every).amount.objects == 0:
        return ": they are roots themselves, or a root of the virtual machine leads to them without a field"
    return ": see --at-least" if search.at_least > 1 else ""


def without_statics(probe: Probe) -> int:
    """Returns how much threads or the virtual machine hold without any static field."""
    return probe.unit.of(probe.whole) - probe.unit.of(probe.retained(probe.candidates.statics()).amount)


def holders_sentences(found: Found) -> List[str]:
    """Returns what the lines do not say: whether there is more, or nothing, and how much is left."""
    search, probe, notes = found.search, found.search.probe, []
    what = counted(probe.unit.of(probe.whole), probe.unit.noun)
    what = f"{what} of {probe.families[0]}" if probe.families else what
    if found.hidden:
        hold = "holds" if found.hidden == 1 else "hold"
        notes.append(f"{found.hidden} more {hold} {search.at_least:.0f}% or more: see --top")
    if not found.lines:
        alone = f"no field, local variable or thread alone holds {search.at_least}% of {what}"
        notes.append(f"{alone}{why_none(search)}")
    unreachable = probe.runs.report.unreachable.bytes
    if not probe.families and 100 * unreachable >= MUCH_UNREACHABLE * probe.whole.bytes and unreachable:
        notes.append(f"{counted(unreachable, 'byte')} more are unreachable: {WHY_UNREACHABLE}")
    notes += filter(None, [found.bytes_words])
    heapmark, retained = probe.runs.heapmark, probe.runs.heapmark.retained
    cost = (
        f"{counted(search.all, 'field')}, {counted(heapmark.runs, 'run')} of heapmark and {retained.runs} of retained"
    )
    rest = f"threads or the virtual machine hold {without_statics(probe):,} of {what} without any static field"
    return [*notes, *probe.runs.changed_words(), f"{rest}; {cost}"]


def main(words: Sequence[str]) -> int:
    """Does what the words of the command line ask for, and returns the exit status."""
    options = parser().read(words)
    if sys.stdout is None:
        write("")
    found = find_holders(options, getattr(options, "class"))
    lines, notes = holder_lines(found), holders_sentences(found)
    if options.json:
        probe = found.search.probe
        fields = holders_fields(probe, found.search.at_least, found.shown, found.hidden, without_statics(probe))
        write(document("holders", fields, notes))
    else:
        write(lines)
    for note in notes:
        say(f"holders: {note}")
    return 0


def run() -> NoReturn:
    """Runs the command with the words of the command line."""
    command_line.run("holders", main)
