"""held: what some fields of a dump retain."""

import sys
from typing import List, NamedTuple, NoReturn, Optional, Sequence, Tuple

from heap_tools import command_line
from heap_tools.candidates import WEAK
from heap_tools.class_growth import ClassGrowth, growths, lines_to_print
from heap_tools.command_line import Parser, number
from heap_tools.console import is_terminal, say, write
from heap_tools.documents import document, dump_entry, held_fields
from heap_tools.dump_runs import DumpRuns
from heap_tools.dump_side import DumpSide, ask_places
from heap_tools.faults import MORE, NO_SUCH_NAME, WRONG_USE, Fault
from heap_tools.field_list import Entry, entries_of, field_of, places_of, root_of
from heap_tools.heap_bytes import counted_in_heap
from heap_tools.heapmark import Heapmark
from heap_tools.label_text import Place
from heap_tools.plain_dumps import is_dump
from heap_tools.reports import Amount, Report, Unit
from heap_tools.what_counts import Way, Weak, side_of

ABOUT = """
Shows what some fields of a heap dump retain: for each class, how many objects
and how many bytes are reachable through these fields only.
"""
NOTES = """
A field belongs to the class that declares it. The class is spelt as heapmark,
grown or jmap shows it, in quotes if it has a `$`; letters beyond ASCII may
stand as they are, and dots in place of slashes. Without `$14+0x..` a hidden
class means all of that name. A line of holders or leaks may be pasted, or what
it ends with: `static A.x` means only a static field, `together static A.x, B.y`
both fields, `A.x > B.y` means B.y, `static A$$*.x` the static fields of classes
whose names differ only in that place, `local A.f` the local variables of a
method, and `thread "NAME"` or `threads "NAME-*"` all that threads of such names
hold.

It runs heapmark on DUMP, then retained, which finds what is not reachable
without these fields, and shows that as grown does between two dumps; grown
--help says how names are shown, holders --help which programs run. A line on
standard error says if an entry of FIELDS names no field, or FIELDS retain
nothing. A name that begins with a hyphen goes after `--`.

As for holders and leaks, soft, weak, final and phantom references lead nowhere,
unless --weak is given or FIELDS names java/lang/ref/Reference.referent. Nor do
the list of a group's threads (JDK 17), which are roots themselves, and that of
references that are not in their queues yet. Classes that are never unloaded
are roots.

Counts of objects are those of retained, which are proved for each dump. Bytes
are those of the heap, with headers and padding of objects: sizes --help says
how they are found, which is not proved.

Calls that are running do not count: it is also found what FIELDS retain without
the local variables that they do not name, and if that is more, it is shown.
What only local variables lead to, such as those of `main`, the FIELDS in it
retain as they are.

Which fields hold much: see leaks and holders.

Exit status:
  0  done: what FIELDS retain, if anything, was printed
  1  DUMP cannot be read or was refused; nothing was printed
  2  the command line is wrong, or FIELDS is no list of fields
  3  with --more-than: a class has more than N such objects
  4  the output cannot be written
  5  heapmark or retained cannot be run, or a run failed; nothing was printed
  6  an entry of FIELDS names no field of DUMP that holds references; what the
     others retain was printed

Example:
  $ held app.hprof 'java/lang/ThreadLocal$ThreadLocalMap$Entry.value'
"""


def parser() -> Parser:
    """Returns the options and operands."""
    it = Parser("held", "[OPTIONS] <DUMP> <FIELDS>", ABOUT, NOTES)
    it.operand("dump", "A heap dump, gzipped or not, in a plain file: it is read more than once")
    it.operand("fields", "The fields, 1 to 64 of the form Class.field with commas between; static fields, too")
    it.flag("--bytes", "Sort by bytes, not by objects")
    text = "Show only classes with more than N such objects; if there are any, the exit status is 3"
    it.option("--more-than", "N", text, type=number())
    it.flag("--weak", "Follow soft, weak, final and phantom references, too")
    it.flag("--dump-bytes", "Count bytes as the dump has them, without headers and padding of objects")
    it.flag("--json", "Print all that lines and notes say as a JSON document")
    return it


class Difference(NamedTuple):
    """The dump, its report without some fields, None if the dump has none of them, and the one with them. `entries`:
    those of the list of fields. `bytes_words`: what there is to say about the bytes."""

    runs: DumpRuns
    without: Optional[Report]
    whole: Report
    entries: List[Entry]
    bytes_words: str

    @property
    def retained(self) -> Amount:
        """All that the fields retain."""
        return self.whole.reachable.minus(self.without.reachable) if self.without else Amount()

    @property
    def notes(self) -> List[str]:
        """What is said beside the lines: which entries name nothing, or that the fields retain nothing."""
        notes = [f"{each.text}: {each.problem}" for each in self.entries if each.problem]
        if self.without == self.whole:
            named = ", ".join(each.text for each in self.entries)
            notes.append(
                f"nothing is retained by {named}: what that leads to, if anything, is reachable another way, too"
            )
        return [*notes, *self.runs.changed_words()]


def difference(path: str, text: str, follows_weak: bool = False, dump_bytes: bool = False) -> Difference:
    """Runs heapmark on the dump `path`, and on it without what `text` names. `dump_bytes`: bytes are those of
    the dump."""
    heapmark, words = Heapmark(), entries_of(text)
    fields = [field_of(each) for each in words if not root_of(each)]
    if fields:
        heapmark.check_fields(",".join(fields))
    dumps = counted_in_heap([DumpRuns.of(heapmark, path, "held")], dump_bytes)
    follows = Weak.ALL if follows_weak or any(each.endswith(WEAK) for each in fields) else Weak.NONE
    side = side_of(dumps.dump, Way(follows))
    found = [places_of(word, side.candidates) for word in words]
    entries = [Entry(word, problem) for word, (_, problem) in zip(words, found)]
    places = [place for of_entry, _ in found for place in of_entry]
    if all(each.problem for each in entries):
        return Difference(dumps.dump, None, dumps.dump.report, entries, dumps.words)
    return Difference(dumps.dump, *largest(side, places), entries, dumps.words)


def largest(side: DumpSide, places: Sequence[Place]) -> Tuple[Report, Report]:
    """Returns the report of the dump without the references at `places` and the one with them, or both without the
    local variables that are not among these if that makes the larger difference. A call that runs hides what others
    hold, by its local variables; but fields below the local variables of a call, such as those of a server in `main`,
    hold nothing without it."""
    calls = [place for each in side.candidates.locals() for place in each.places if place not in places]
    (table,) = ask_places([(side, [places, calls, [*places, *calls]])])
    without, idle, silent = (side.report_without(table, label) for label in range(3))
    pairs = (without, side.base), (silent, idle)
    return max(pairs, key=lambda pair: pair[1].reachable.objects - pair[0].reachable.objects)


def lines_of_held(found: Difference, classes: Sequence[ClassGrowth], unit: Unit) -> str:
    """Returns the lines."""
    return lines_to_print(classes, unit, bytes_head=found.whole.bytes_head)


def json_of(found: Difference, classes: Sequence[ClassGrowth], unit: Unit) -> str:
    """Returns the document for what was found."""
    return document(
        "held", held_fields(dump_entry(found.runs), found.entries, classes, unit, found.retained), found.notes
    )


def main(words: Sequence[str]) -> int:
    """Does what the words of the command line ask for, and returns the exit status."""
    options = parser().read(words)
    if is_dump(options.fields):
        text = f"{options.fields}: a file: leaks {options.dump} {options.fields} shows what grew, and what holds it"
        raise Fault(WRONG_USE, text)
    found = difference(options.dump, options.fields, options.weak, options.dump_bytes)
    unit = Unit.BYTES if options.bytes else Unit.OBJECTS
    classes = growths([found.without, found.whole], unit, options.more_than) if found.without else []
    try:
        write(json_of(found, classes, unit) if options.json and found.without else lines_of_held(found, classes, unit))
    finally:
        for note in found.notes:
            say(f"held: {note}")
        if found.bytes_words and is_terminal(sys.stderr):
            say(f"held: {found.bytes_words}")
    if classes and options.more_than is not None:
        return MORE
    return NO_SUCH_NAME if any(each.problem for each in found.entries) else 0


def run() -> NoReturn:
    """Runs the command with the words of the command line."""
    command_line.run("held", main)
