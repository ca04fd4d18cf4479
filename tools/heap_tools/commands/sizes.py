"""sizes: what the classes of a dump take in the heap, as the virtual machine counts."""

import platform
import shlex
import sys
import time
from argparse import Namespace
from typing import List, NoReturn, Sequence

from heap_tools import command_line, page
from heap_tools.command_line import Parser, number
from heap_tools.console import Progress, is_terminal, say, write
from heap_tools.documents import document, sizes_fields
from heap_tools.dump_runs import DumpRuns
from heap_tools.heap_bytes import unsure_words
from heap_tools.heap_sizes import ClassSize, HeapSizes, sizes_by_package, sizes_in, unreachable_first
from heap_tools.heapmark import Heapmark
from heap_tools.humanize import counted, size
from heap_tools.omissions import WHY_UNREACHABLE
from heap_tools.page_content import program_of, require_place, write_page
from heap_tools.reports import Amount
from heap_tools.version import VERSION

ABOUT = """
Shows what the classes of a heap dump take in the heap: for each class, a line
with the number of its objects, their bytes, the bytes an object, the share of
the heap, and the bytes of those objects that are unreachable, the largest
first.
"""
NOTES = """
Bytes are those of the heap, with headers and padding, as a limit such as -Xmx,
a monitor and `jcmd PID GC.class_histogram` count them. A dump does not have
them: they are found by the identifiers of objects, which are addresses, since
the difference of two neighbours is the size of the first. A line on standard
error says which layout was found. If too few neighbours agree on one, it says
so, and bytes are those of the dump, as in heapmark's report. What is reachable
is counted by heapmark, which is proved; what is not, class by class, is counted
by this tool. Sizes are not proved, but were compared with virtual machines.

The last lines are what is reachable, what is not, and all. Objects are
unreachable if they are garbage, in dumps with -all or of an OutOfMemoryError,
or if dumps omit what holds them. If a line (omitted) is before the last, the
heap has class objects that the dump lacks, of classes in the JDK's archive that
were not loaded: an array of the virtual machine refers to them. The line
java/lang/Class has the others, with their static fields. An array counts for
the package of its elements.

Free memory is not shown, and neither is what no object has, such as the stacks
of threads. The stacks of virtual threads that wait are objects: a line on
standard error says what these take.

What holds the objects of a class: see holders. What fills the heap, with the
path to it: see leaks. What grew: see grown and leaks.

Exit status:
  0  done
  1  DUMP cannot be read or was refused; nothing was printed
  2  the command line is wrong
  4  the output or FILE cannot be written
  5  heapmark cannot be run, or was ended by a signal

Example:
  $ sizes --top 20 friday.hprof
"""


def parser() -> Parser:
    """Returns the options and operands."""
    it = Parser("sizes", "[OPTIONS] <DUMP>", ABOUT, NOTES)
    it.operand("dump", "A heap dump, gzipped or not, in a plain file: it is read several times")
    it.flag("--packages", "Show packages in place of classes")
    it.flag("--unreachable", "Show only classes that have unreachable objects, those with most bytes of these first")
    it.option("--top", "N", "Show at most N lines, besides the totals at the end", type=number(1))
    it.option("--html", "FILE", "Also write a page for a browser, with a picture of the heap, to FILE")
    it.flag("--json", "Print all that lines and notes say as a JSON document")
    return it


def sizes_shown(sizes: HeapSizes, options: Namespace) -> List[ClassSize]:
    """Returns the classes or packages, in the order of their lines."""
    every = sizes_by_package(sizes.classes) if options.packages else sizes.classes
    return unreachable_first(every) if options.unreachable else every


def size_lines(shown: Sequence[ClassSize], sizes: HeapSizes, word: str) -> str:
    """Returns a line for each class that is shown and for the totals, on a terminal below the heads of the columns."""
    heads = f"{'objects':>10} {'bytes':>14} {'an object':>10} share {'unreachable':>14}  {word}\n"
    lines = [heads] if is_terminal(sys.stdout) else []
    totals = [
        ClassSize("(reachable)", sizes.in_dump.reachable, Amount()),
        ClassSize("(unreachable)", sizes.in_dump.unreachable, sizes.in_dump.unreachable),
        ClassSize("(all)", sizes.every, sizes.in_dump.unreachable),
    ]
    if sizes.omitted.objects:
        totals.insert(2, ClassSize("(omitted)", sizes.omitted, Amount()))
    return "".join([*lines, *(size_line(each, sizes.every.bytes) for each in (*shown, *totals))])


def size_line(each: ClassSize, whole: int) -> str:
    """Returns the line of a class in a heap of `whole` bytes."""
    objects, taken = each.every
    mean, share = taken / max(1, objects), 100 * taken / max(1, whole)
    return f"{objects:10} {taken:14} {mean:10.1f} {share:4.1f}% {each.unreachable.bytes:14}  {each.name}\n"


def hidden_note(hidden: int) -> List[str]:
    """Returns how many lines are not printed, nothing if all are. The page has no lines, and does not say it."""
    return [f"{counted(hidden, 'line')} more: see --top"] if hidden else []


def size_notes(sizes: HeapSizes) -> List[str]:
    """Returns what the lines do not say."""
    notes = []
    if sizes.in_dump.unreachable.objects:
        notes.append(f"{counted(sizes.in_dump.unreachable.objects, 'object')} are unreachable: {WHY_UNREACHABLE}")
    if sizes.layout is None:
        notes.append(f"the sizes of objects in the heap are not known, since {sizes.why_unknown}; bytes are the dump's")
        return notes
    if sizes.omitted.objects:
        what = f"{counted(sizes.omitted.objects, 'class object')} ({size(sizes.omitted.bytes)})"
        notes.append(f"the dump omits {what} of classes in the JDK's archive that were not loaded")
    if sizes.stacks.objects:
        what = f"{counted(sizes.stacks.bytes, 'byte')} in {counted(sizes.stacks.objects, 'object')}"
        notes.append(f"the stacks of virtual threads that wait take {what}")
    unsure = unsure_words(sizes.unsure, sizes.every.bytes)
    return [*notes, *([unsure] if unsure else []), f"the layout that neighbours show: {sizes.layout.words()}"]


def content_of_sizes(
    runs: DumpRuns, sizes: HeapSizes, notes: Sequence[str], words: Sequence[str], began: float
) -> page.Sizes:
    """Returns what the page of `--html` shows."""
    whole = sizes.in_dump
    versions = [("sizes", VERSION), ("heapmark", runs.heapmark.version()), ("Python", platform.python_version())]
    command, now = " ".join(map(shlex.quote, ["sizes", *words])), time.time()
    return page.Sizes(
        dump=page.DumpEntry(
            runs.path,
            runs.dump.size,
            runs.dump.time,
            whole.reachable,
            whole.unreachable,
            runs.report.unresolved,
        ),
        classes={each.name: each.every for each in sizes.classes},
        unreachable={each.name: each.unreachable for each in sizes.classes if each.unreachable.objects},
        omitted=sizes.omitted,
        has_heap_bytes=sizes.layout is not None,
        making=page.Making(command, runs.heapmark.runs, now - began, int(1000 * now), versions),
        program=program_of(runs, False),
        notes=[f"{each[0].upper()}{each[1:]}." for each in notes],
    )


def main(words: Sequence[str]) -> int:
    """Does what the words of the command line ask for, and returns the exit status."""
    options = parser().read(words)
    if sys.stdout is None:
        write("")
    if options.html is not None:
        require_place(options.html)
    began, progress = time.time(), Progress("sizes")
    progress.show("reading the dump")
    try:
        runs = DumpRuns.of(Heapmark(), options.dump, "sizes")
        sizes = sizes_in(runs)
    finally:
        progress.clear()
    every = sizes_shown(sizes, options)
    shown = every[: options.top]
    notes, hidden = [*size_notes(sizes), *runs.changed_words()], len(every) - len(shown)
    said = [*hidden_note(hidden), *notes]
    if options.json:
        write(document("sizes", sizes_fields(runs, sizes, shown, options.packages, hidden), said))
    else:
        write(size_lines(shown, sizes, "package" if options.packages else "class"))
    if options.html is not None:
        write_page(options.html, content_of_sizes(runs, sizes, notes, words, began))
    for note in said:
        say(f"sizes: {note}")
    return 0


def run() -> NoReturn:
    """Runs the command with the words of the command line."""
    command_line.run("sizes", main)
