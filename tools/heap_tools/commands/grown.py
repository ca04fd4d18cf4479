"""grown: which classes grew between dumps, reports or histograms of one program."""

import os
import sys
from typing import List, NoReturn, Sequence

from heap_tools import command_line
from heap_tools.class_growth import growths, lines_to_print
from heap_tools.class_names import is_own
from heap_tools.command_line import Parser, number
from heap_tools.console import is_terminal, say, write
from heap_tools.documents import document, grown_fields
from heap_tools.faults import MORE
from heap_tools.omissions import counted_by_histogram, more_unreachable
from heap_tools.reports import Unit
from heap_tools.same_program import Taken, other_program, same_file, wrong_order
from heap_tools.snapshot_bytes import in_common_bytes
from heap_tools.snapshots import Snapshot, hours_between, read_snapshots

ABOUT = """
Shows which classes grew between heap dumps of one program: for each class with
more objects or more bytes in the last dump than in the first, a line with the
growth in objects, the growth in bytes, and the class, the largest growth first.
"""
NOTES = """
With several files AFTER, each line also shows the growth at each step, before
the class. Classes that grew at every step come first: a cache that fills and
then stops is no leak. The steps and the growth per hour are in objects, with
--bytes in bytes. On a terminal, a bar compares each growth with the largest.

Classes of the same name are added together. So are hidden classes, such as
those of lambdas, whose names differ only in a counter and an address:
`$14+0x..` is cut off. A line on standard error says if more objects are
unreachable in the last file, which --more-than does not count, if a histogram
has what is unreachable in a dump, if a dump is older than the one before it, or
if the files seem to be of two programs.

Bytes are those of the heap, with headers and padding of objects, as a histogram
has them: sizes --help says how they are found, which is not proved. The counts
of objects in dumps are: they are heapmark's. Only beside a histogram, the class
objects that a dump omits are added, whose number is not proved: those of the
line (omitted) of sizes. Bytes of a saved report are those of the dump: reports
are not mixed with histograms, and dumps beside a report count as it does. So do
dumps whose layout is not known, and those that come from a pipe. A file that is
not plain must be a dump. Put a name that begins with a hyphen after `--`.

heapmark is taken from the variable HEAPMARK, else from beside this tool, else
from the build in this repository, else from PATH. It runs with
GLIBC_TUNABLES=glibc.malloc.hugetlb=1, which makes it faster, unless that
variable is set.

Which field holds what grew: see leaks.

Exit status:
  0  done: what grew, if anything, was printed
  1  a file cannot be read, was refused, or does not go with the others; nothing
     was printed
  2  the command line is wrong
  3  with --more-than: a class has more than N objects more
  4  the output cannot be written
  5  heapmark cannot be run, or was ended by a signal

Example:
  $ grown --top 20 monday.hprof friday.hprof
"""


def parser() -> Parser:
    """Returns the options and operands."""
    it = Parser("grown", "[OPTIONS] <BEFORE> <AFTER>...", ABOUT, NOTES)
    kinds = "A heap dump, gzipped or not, or a report of heapmark or output of `jcmd PID GC.class_histogram` in a file"
    it.operand("before", kinds)
    it.operand("after", "One or more later ones of the same program, the earliest first", nargs="+")
    it.flag("--bytes", "Sort by the growth in bytes, not in objects")
    text = "Show only classes with more than N objects more; if there are any, the exit status is 3"
    it.option("--more-than", "N", text, type=number())
    text = "Show the growth per hour, too; the first and the last file must be dumps, since only a dump has its time"
    it.flag("--per-hour", text)
    it.flag("--own", "Show only classes that are not of the JDK")
    it.option("--top", "N", "Show at most N lines", type=number(1))
    it.option("--skip", "LIST", "Fields that are not followed in dumps, as heapmark takes them")
    it.flag("--dump-bytes", "Count bytes as dumps have them, without headers and padding of objects")
    it.flag("--json", "Print all that lines and notes say as a JSON document")
    return it


def order_note(snapshots: Sequence[Snapshot]) -> str:
    """Returns which dump was made earlier than the one before it on the command line, empty if none was."""
    return wrong_order([Taken(each.path, each.time) for each in snapshots]) or ""


def unreachable_note(first: Snapshot, last: Snapshot) -> str:
    """Returns how much more is unreachable in the last file, or what is in a dump beside a histogram, which does not
    tell it apart. Empty if that is nothing."""
    if "histogram" in (first.kind, last.kind):
        both = ((each.report.unreachable.objects, each.path) for each in (first, last))
        return next((counted_by_histogram(*each) for each in both if each[0]), "")
    more = last.report.unreachable.minus(first.report.unreachable)
    return f"{more_unreachable(more)}: compare outputs of jmap -histo:live, which count it" if max(more) > 0 else ""


def program_note(first: Snapshot, last: Snapshot) -> str:
    """Returns why the two files seem to be of two programs, empty if they do not."""
    few = other_program(first.report.families, last.report.families)
    return f"{last.path}: another program? it has {few} of {first.path}" if few else ""


def grown_sentences(snapshots: Sequence[Snapshot]) -> List[str]:
    """Returns what is said beside the lines."""
    first, last = snapshots[0], snapshots[-1]
    every = order_note(snapshots), unreachable_note(first, last), program_note(first, last)
    return [each for each in every if each]


def why_nothing(files: Sequence[Snapshot], is_limited: bool) -> str:
    """Returns why nothing is printed. `is_limited`: options may be why."""
    first, last = files[0].path, files[-1].path
    same = same_file([first, last]) if os.path.isfile(first) and os.path.isfile(last) else None
    return same or f"no {'such ' * is_limited}class has more objects or bytes in {last} than in {first}"


def main(words: Sequence[str]) -> int:
    """Does what the words of the command line ask for, and returns the exit status."""
    options = parser().read(words)
    files = read_snapshots([options.before, *options.after], options.skip)
    snapshots, bytes_words = in_common_bytes(files, options.dump_bytes)
    hours = hours_between(snapshots[0], snapshots[-1]) if options.per_hour else None
    unit = Unit.BYTES if options.bytes else Unit.OBJECTS
    found = growths([each.report for each in snapshots], unit, options.more_than)
    if options.own:
        found = [each for each in found if is_own(each.name)]
    notes, shown = grown_sentences(snapshots), found[: options.top]
    try:
        if options.json:
            write(document("grown", grown_fields(snapshots, shown, len(found) - len(shown), unit, hours), notes))
        else:
            write(lines_to_print(shown, unit, hours, snapshots[-1].report.bytes_head))
    finally:
        if not found and is_terminal(sys.stderr):
            say(f"grown: {why_nothing(snapshots, options.own or options.more_than is not None)}")
        for note in notes:
            say(f"grown: {note}")
        if bytes_words and is_terminal(sys.stderr):
            say(f"grown: {bytes_words}")
    return MORE if found and options.more_than is not None else 0


def run() -> NoReturn:
    """Runs the command with the words of the command line."""
    command_line.run("grown", main)
