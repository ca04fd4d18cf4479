"""leaks: which fields, static fields, local variables and threads hold what grew between dumps of one program."""

import contextlib
import sys
import time
from argparse import Namespace
from typing import Iterator, List, NamedTuple, NoReturn, Optional, Sequence

from heap_tools import command_line
from heap_tools.command_line import Parser, number
from heap_tools.comparison import (
    Comparison,
    NoGrowth,
    comparison_of,
    dumps_of,
    families_asked,
    missing_words,
    unreachable_growth,
)
from heap_tools.console import Progress, is_terminal, say, write
from heap_tools.documents import document
from heap_tools.dump_runs import DumpRuns
from heap_tools.faults import MORE, NOTHING, WRONG_USE, Fault
from heap_tools.heap_bytes import counted_in_heap
from heap_tools.heapmark import Heapmark
from heap_tools.humanize import counted, duration, size
from heap_tools.leak_documents import Cost, fields_of_growth, fields_of_nothing, fields_of_one
from heap_tools.leak_answer import Answer, answer_of
from heap_tools.leak_lines import Line
from heap_tools.leak_notes import (
    NOTHING_LASTS,
    lines_words,
    notes_of,
    notes_words,
    rest_words,
    without_values,
)
from heap_tools.leak_options import Bounds, Options
from heap_tools.one_dump import AT_LEAST, HeapAnswer, question_of
from heap_tools.one_dump_notes import notes_of_one, sentences_of
from heap_tools.probe import GrowthProbe
from heap_tools.reports import Unit
from heap_tools.shown_path import line_with_path

ABOUT = """
Shows what holds the objects that grew between heap dumps of one program: for
each leak a line, with the field, static field, local variable or thread that
holds it. Of one dump it shows what holds much of the heap.
"""
NOTES = """
The columns are the objects and the bytes that are held in the last dump and
were not in the first, their share of the growth, the bytes that were held in
the first dump and are in the last (with --objects, objects), the number of
instances that have the field, in the first dump too if it was another, and the
field. A static field has one instance; those of a local variable are the
threads in its method. Fields above a field, from a static field, a local
variable or a thread down, stand before it: in `A > B`, A holds all that B does.
If several roots lead to a path, and none holds all of it, a message names the
nearest, and says how many others there are.

Line 1 is the accumulation point: the last place on the path where most of the
growth is still together, in objects that both dumps have. On one path, fields
of your own come before collections and fields of the JDK. What did not grow at
each step between several dumps comes last, and what gained nearly all in one
step after what grew evenly. If only new objects hold what grew, line 1 is the
topmost one, such as a thread.

Each other line is the same of what the lines above it leave: the references of
these are cut, and it is asked again, until less than a tenth of the growth is
left. So no object counts twice. With --all, each field that holds much has a
line, the answer first, also those above it and below it.

Calls that are running do not count, if most of the growth is held without them:
their local variables lead into containers that fields hold. What only they hold
can be a line after all others.

The growth is that of the reachable bytes, or of the objects and bytes of CLASS.
If no more bytes are reachable than before, it is that of the objects of all
classes that grew. A share is above 100% if what the field does not hold shrank.

Soft, weak, final and phantom references lead nowhere without --weak. But if
those of one kind alone hold most of the growth, these are followed, and a
message says so; soft ones never are.

Counts of objects are those of retained, which are proved for each dump. Bytes
are those of the heap, with headers and padding of objects: sizes --help says
how they are found, which is not proved.

Of one dump, the columns are the objects and bytes that are held, their share of
all that is reachable, and the number of instances. Line 1 is what holds most in
few objects. Messages say how full the heap is, which object holds most, what is
in it, and in which methods memory ran out: of an unlucky thread, which need not
be the cause.

How lines are ordered, rule by rule: see docs/LEAK.md.

How it is found, and what holds a class in one dump, from a share of 10% on: see
holders. All that a field holds: see held. Which classes grew: see grown. What
classes take in the heap: see sizes.

Exit status:
  0  done: what holds the growth, if anything, was printed
  1  a dump cannot be read, was refused, or does not go with the others; nothing
     was printed
  2  the command line is wrong
  3  nothing grew, or no object of CLASS is reachable: there is no line, and of
     --json a document without one; with --more-than, more than BYTES grew
  4  the output or FILE cannot be written
  5  heapmark or retained cannot be run, or a run failed; nothing was printed
  6  no class of the last dump has the name CLASS; nothing was printed
  7  of one dump, only weak references hold the objects of CLASS: see --weak

Examples:
  $ leaks oom.hprof
  $ leaks monday.hprof friday.hprof
"""
#: The most files on a command line: each is read, and each has a place in the page's charts.
MOST_FILES = 100
#: The share of the growth from which on the first line is shown, in percent.
AT_LEAST_OF_GROWTH = 30
#: The share from which on each other line is shown: of a leak with less, a later dump says more.
AT_LEAST_OF_OTHERS = 10
#: How many lines are shown: who reads an alarm reads no more.
MOST_LINES = 4


def parser() -> Parser:
    """Returns the options and operands."""
    it = Parser("leaks", "[OPTIONS] <DUMP> [<AFTER>...]", ABOUT, NOTES)
    it.operand("dump", "A heap dump, gzipped or not, in a plain file: it is read more than once")
    it.operand("after", "Later ones of the same program, the earliest first", nargs="*", default=[])
    text = "Show what holds the objects of a class, as heapmark, grown or jmap shows it, not the whole heap"
    it.option("--class", "CLASS", text, dest="of_class")
    it.flag("--objects", "Take shares of objects, not of bytes")
    text = (
        "Show what holds P percent or more, 1 to 100 [default: 10, and line 1 from 30 of the growth on, from 20 of the "
        "heap of one dump]"
    )
    it.option("--at-least", "P", text, type=number(1, 100))
    it.option("--top", "N", "Show at most N lines [default: 4, and all with --all]", type=number(1))
    it.flag("--all", "Show each field that holds as much as line 1 must, also above and below others")
    text = "Show it only if more than BYTES bytes more are reachable; the exit status is then 3, else 0"
    it.option("--more-than", "BYTES", text, type=number())
    it.option("--html", "FILE", "Also write a page for a browser, with charts, to FILE")
    it.flag("--weak", "Follow soft, weak, final and phantom references, too")
    it.flag("--no-values", "Show no text or number that the dump has in fields, except the names of threads")
    it.flag("--dump-bytes", "Count bytes as dumps have them, without headers and padding of objects")
    it.flag("--json", "Print all that lines and notes say as a JSON document")
    return it


class Output(NamedTuple):
    """What is printed, and how it came about: the words of the command line, what runs heapmark, when it began, whether
    a document is printed, and the file of the page."""

    words: Sequence[str]
    heapmark: Heapmark
    began: float
    is_json: bool
    page: Optional[str]

    def cost(self, fields: int) -> Cost:
        """Returns what it has cost to try so many fields."""
        return Cost(fields, self.heapmark.runs, self.heapmark.retained.runs, time.time() - self.began)


def printed(lines: Sequence[Line], unit: Unit) -> str:
    """Returns the lines as they are printed."""
    texts = []
    for line in lines:
        gain, was, now = line.held.amount.minus(line.before), unit.of(line.before), unit.of(line.held.amount)
        text = f"{gain.objects:10} {gain.bytes:14} {line.share:4.0f}% {was:14} {now:14}"
        figures = f"{text} {instances_of(line):>{width_of(lines)}}"
        texts.append(line_with_path(figures, [*line.above, line.held]) + "\n")
    return "".join(texts)


def printed_of_one(answer: HeapAnswer) -> str:
    """Returns the lines of one dump as they are printed, on a terminal below the heads of the columns."""
    heads = f"{'objects':>10} {answer.question.runs.report.bytes_head:>14} share instances  field\n"
    found = [heads] if answer.lines and is_terminal(sys.stdout) else []
    for line in answer.lines:
        amount = line.held.amount
        figures = f"{amount.objects:10} {amount.bytes:14} {line.share:4.0f}% {line.instances:9}"
        found.append(line_with_path(figures, [*line.above, line.held]) + "\n")
    return "".join(found)


def instances_of(line: Line) -> str:
    """Returns the number of instances of a line, and before it the one in the first dump if that differs."""
    was, now = line.instances_before, line.instances
    return str(now) if was == now else f"{was} to {now}"


def width_of(lines: Sequence[Line]) -> int:
    """Returns the width of the column of instances."""
    return max([9, *(len(instances_of(line)) for line in lines)])


def lines_above(comparison: Comparison, probe: GrowthProbe, width: int) -> str:
    """Returns what stands above the lines on a terminal: how much the heap grew, and the heads of the columns."""
    was, now = (size(each.runs.report.total(probe.families).bytes) for each in (probe.earlier, probe))
    of_class = probe.families[0] if probe.families and len(probe.families) == 1 else "classes that grew"
    what = of_class if probe.families else "reachable"
    took = comparison.last.dump.time - comparison.first.dump.time
    head = f"{what} {was} to {now}" + f" in {duration(took)}" * (took > 0)
    unit = comparison.last.report.bytes_head
    return f"{head}\n{'objects':>10} {unit:>14} share {'before':>14} {'after':>14} {'instances':>{width}}  field\n"


def remainder(answer: Answer, comparison: Comparison, options: Options) -> List[str]:
    """Returns what the lines do not have, a sentence each."""
    probe, found = comparison.probe, [] if answer.lasts else [NOTHING_LASTS]
    found += rest_words(answer, options.bounds, "the growth")
    if probe.unit.of(unreachable_growth(comparison.dumps)) > probe.unit.of(probe.growth):
        found.append(missing_words(comparison.dumps))
    return found


@contextlib.contextmanager
def nothing_too(dumps: Sequence[DumpRuns], options: Options, output: Output) -> Iterator[None]:
    """Prints a document if the block ends since there is nothing that grew, or no object of the class."""
    try:
        yield
    except Fault as fault:
        if output.is_json and fault.status in (0, NOTHING):
            cost = output.cost(0)
            none, families = fault if isinstance(fault, NoGrowth) else None, families_asked(options, dumps[-1])
            write(document("leaks", fields_of_nothing(dumps, families, options, none, cost), [str(fault)]))
        raise


def as_shown(answer: Answer, options: Options) -> Answer:
    """Returns an answer without the values of the dump that `options` hide."""
    return answer._replace(lines=without_values(answer.lines, options.shows_values))


def print_growth(paths: Sequence[str], options: Options, output: Output) -> None:
    """Prints what holds the growth between two dumps or more."""
    progress = Progress("leaks")
    try:
        dumps = counted_in_heap(dumps_of(paths, output.heapmark, progress), options.dump_bytes)
        progress.show("asking what each field holds")
        with nothing_too(dumps.dumps, options, output):
            comparison = comparison_of(dumps.dumps, options)
        calls = comparison.running_calls(options.bounds.others)
        answer = answer_of(comparison.probe, options.bounds, comparison.probes_between, calls)
        answer = as_shown(answer, options)
        notes = notes_of(comparison, answer.lines)
    finally:
        progress.clear()
    has_heads = is_terminal(sys.stdout) and answer.lines
    above = lines_above(comparison, comparison.probe, width_of(answer.lines)) if has_heads else ""
    cost = output.cost(answer.search.all)
    sentences = [*comparison.why, *lines_words(answer.lines), *notes_words(notes)]
    sentences += remainder(answer, comparison, options)
    changed = [words for each in dumps.dumps for words in each.changed_words()]
    sentences += [*filter(None, [dumps.words]), *changed, str(cost)]
    if output.is_json:
        write(document("leaks", fields_of_growth(comparison, answer, notes, cost), sentences))
    else:
        write(above + printed(answer.lines, comparison.probe.unit))
    if output.page is not None:
        # Not loaded without a page: what pages are made of takes nearly as long to load as all else.
        from heap_tools.page_content import content_of, making_of, write_page

        making = making_of(output.words, output.heapmark, output.began)
        write_page(output.page, content_of(comparison, answer, notes, making, options))
    for sentence in sentences:
        say(f"leaks: {sentence}")


def print_one(path: str, options: Options, output: Output) -> None:
    """Prints what fills the heap of one dump."""
    progress = Progress("leaks")
    try:
        progress.show("reading the dump")
        dumps = counted_in_heap([DumpRuns.of(output.heapmark, path, "leaks")], options.dump_bytes)
        progress.show("asking what each field holds")
        with nothing_too(dumps.dumps, options, output):
            question = question_of(dumps.dump, options)
        calls = question.running_calls(options.bounds.others)
        answer = HeapAnswer(question, as_shown(answer_of(question.probe, options.bounds, calls=calls), options))
        notes = notes_of_one(answer)
    finally:
        progress.clear()
    cost = output.cost(answer.found.search.all)
    changed, probe = dumps.dump.changed_words(), question.probe
    rest = rest_words(answer.found, options.bounds, counted(probe.unit.of(probe.growth), probe.unit.noun))
    sentences = [*sentences_of(answer, notes, rest), *filter(None, [dumps.words]), *changed, str(cost)]
    if output.is_json:
        write(document("leaks", fields_of_one(answer, notes, cost), sentences))
    else:
        write(printed_of_one(answer))
    if output.page is not None:
        from heap_tools.one_dump_page import page_of_one
        from heap_tools.page_content import making_of, write_page

        making = making_of(output.words, output.heapmark, output.began)
        write_page(output.page, page_of_one(answer, notes, making, options))
    for sentence in sentences:
        say(f"leaks: {sentence}")


def bounds_of(options: Namespace) -> Bounds:
    """Returns which lines the options ask for."""
    first = options.at_least or (AT_LEAST_OF_GROWTH if options.after else AT_LEAST)
    top = options.top or (sys.maxsize if options.all else MOST_LINES)
    return Bounds(first, options.at_least or AT_LEAST_OF_OTHERS, top, options.all)


def main(words: Sequence[str]) -> int:
    """Does what the words of the command line ask for, and returns the exit status."""
    options = parser().read(words)
    if 1 + len(options.after) > MOST_FILES:
        raise Fault(WRONG_USE, f"{1 + len(options.after)} dumps: at most {MOST_FILES}")
    if options.more_than is not None and not options.after:
        raise Fault(WRONG_USE, "--more-than: one dump shows no growth: a later one does")
    if options.html is not None:
        from heap_tools.page_content import require_place

        require_place(options.html)
    unit, flags = Unit.OBJECTS if options.objects else Unit.BYTES, (options.weak, not options.no_values)
    asked = Options(options.of_class, unit, bounds_of(options), *flags, options.dump_bytes, options.more_than)
    output = Output(words, Heapmark(), time.time(), options.json, options.html)
    if options.after:
        print_growth([options.dump, *options.after], asked, output)
    else:
        print_one(options.dump, asked, output)
    return 0 if options.more_than is None else MORE


def run() -> NoReturn:
    """Runs the command with the words of the command line."""
    command_line.run("leaks", main)
