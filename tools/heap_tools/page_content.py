"""What `leaks` shows on the page of `--html`."""

import os
import platform
import shlex
import time
from typing import Dict, List, Optional, Sequence

from heap_tools import VERSION, page
from heap_tools.candidates import Candidate
from heap_tools.class_growth import growths
from heap_tools.class_names import CLASSES, is_own
from heap_tools.comparison import Comparison, unreachable_growth
from heap_tools.dump_runs import DumpRuns
from heap_tools.faults import UNWRITABLE, WRONG_USE, Fault
from heap_tools.heapmark import Heapmark
from heap_tools.heap_bytes import layout_words
from heap_tools.leak_answer import Answer
from heap_tools.leak_lines import Line
from heap_tools.leak_notes import Notes, elements_of
from heap_tools.leak_options import Options
from heap_tools.omissions import on_page
from heap_tools.plain_dumps import is_dump
from heap_tools.probe import GrowthProbe
from heap_tools.program_facts import facts_of
from heap_tools.reports import Amount, Report, Unit
from heap_tools.which_object import HoldingObject


def content_of(
    comparison: Comparison, answer: Answer, notes: Notes, making: page.Making, options: Options
) -> page.Leak:
    """Returns what the page of `--html` shows: unless `options` hide them, of the program, too, what values of the dump
    say."""
    probe = comparison.probe
    of_class = probe.families[0] if probe.families and len(probe.families) == 1 else None
    reports = [runs.report for runs in comparison.dumps]
    grown = growth_entries(reports, probe.unit)
    names = [of_class] if of_class else [each.name for each in grown]
    return page.Leak(
        dumps=[dump_of(runs) for runs in comparison.dumps],
        grown=grown,
        holders=[holder_of(line, probe, measured_between(line, comparison)) for line in answer.lines],
        last=reports[-1].families,
        growth=answer.whole,
        omitted=on_page(unreachable_growth(comparison.dumps)),
        making=making,
        by=probe.unit,
        of_class=of_class,
        is_of_grown=bool(probe.families) and of_class is None,
        program=program_of(comparison.last, options.shows_values),
        next_steps=steps_from(comparison.last.path, answer.lines, names, comparison.follows_weak),
        objects=objects_of(answer.lines),
        threads=[page.ThreadGroupEntry(it.pattern, it.before, it.after, it.frames) for it in notes.threads],
        notes=[sentence_of(text) for text in (*comparison.why, *notes.sentences) if text != comparison.followed.why],
        weak=weak_sentence(comparison),
        layout=layout_sentence(comparison.last),
        contents=contents_of_growth(answer.lines[0], probe) if answer.lines else [],
        shares=share_entries(answer.lines, options.bounds.shows_all),
        shows_all=options.bounds.shows_all,
        counts_calls=answer.whole != probe.growth,
    )


def contents_of_growth(line: Line, probe: GrowthProbe) -> List[page.GrownClass]:
    """Returns the classes of what a line holds, with what it held of each and what it holds now: those that grew most
    come first."""
    was, now, unit = probe.before(line.held.candidates).lost, line.held.lost, probe.unit
    found = [page.GrownClass(name, [was.get(name, Amount()), now.get(name, Amount())]) for name in {**was, **now}]
    return sorted(found, key=lambda it: (-unit.of(it.growth), -unit.other.of(it.growth), it.name))


def share_entries(lines: Sequence[Line], shows_all: bool) -> List[page.ShareEntry]:
    """Returns the parts of the heap that lines hold, which must be disjoint: if all that holds much is shown, only the
    first line counts, since others may be above it or below it."""
    disjoint = lines[:1] if shows_all else lines
    return [page.ShareEntry(fields_of(line.held.candidates), line.held.lost) for line in disjoint]


def sentence_of(text: str) -> str:
    """Returns a text as a sentence."""
    return f"{text[0].upper()}{text[1:]}."


def weak_sentence(comparison: Comparison) -> Optional[str]:
    """Returns a sentence on the weak references that are followed, or None if none are."""
    if comparison.followed.why:
        return sentence_of(comparison.followed.why)
    return "What soft, weak, final or phantom references hold counts, too." if comparison.follows_weak else None


def layout_sentence(runs: DumpRuns) -> Optional[str]:
    """Returns a sentence on what bytes are, if they are not those of the dump."""
    words = layout_words(runs.sizes)
    return sentence_of(words) if words else None


def growth_entries(reports: Sequence[Report], unit: Unit) -> List[page.GrownClass]:
    """Returns the classes that grew between the first report and the last, with their amounts in each. Class objects
    are no class of the program, and are left out."""
    names = [each.name for each in growths(reports, unit) if each.name != CLASSES]
    return [page.GrownClass(name, [report.amount(name) for report in reports]) for name in names]


def objects_of(lines: Sequence[Line]) -> List[page.ObjectEntry]:
    """Returns the objects that hold most of what each line holds, or of a field above it or below it."""
    found: List[page.ObjectEntry] = []
    for number, line in enumerate(lines, 1):
        if line.objects:
            is_of_line = line.objects.held.key == line.held.key
            field = None if is_of_line else fields_of(line.objects.held.candidates)[0]
            found += [object_of(number, it, field) for it in line.objects.objects]
    return found


def object_of(line: int, it: HoldingObject, field: Optional[page.FieldEntry]) -> page.ObjectEntry:
    """Returns what the page shows of an object that has the field of a line, or another `field` above it or below
    it."""
    names = [page.NameEntry(name.how, name.text) for name in it.names]
    return page.ObjectEntry(line, it.class_name, names, it.amount.bytes, it.percent, it.has_gained, field)


def dump_of(runs: DumpRuns) -> page.DumpEntry:
    """Returns what the page shows of a dump."""
    report = runs.report
    size, made = runs.dump.size, runs.dump.time
    return page.DumpEntry(runs.path, size, made, report.reachable, report.unreachable, report.unresolved)


def program_of(runs: DumpRuns, shows_values: bool) -> page.ProgramEntry:
    """Returns what the page shows of the program that a dump is of."""
    facts = facts_of(runs.dump, shows_values)
    return page.ProgramEntry(facts.name, facts.process, facts.machine)


def measured_between(line: Line, comparison: Comparison) -> Dict[int, Amount]:
    """Returns what a line holds in the dumps between the first and the last that were asked, by their places."""
    places = {runs.path: place for place, runs in enumerate(comparison.dumps)}
    return {places[each.path]: amount for each, amount in zip(comparison.between, line.between)}


def holder_of(line: Line, probe: GrowthProbe, between: Dict[int, Amount]) -> page.HolderEntry:
    """Returns what the page shows of a line. `between`: what it holds in dumps between, by their places."""
    return page.HolderEntry(
        fields=fields_of(line.held.candidates),
        instances=line.instances,
        before=share_of(line.before, probe.unit, probe.earlier.whole),
        after=share_of(line.held.amount, probe.unit, probe.whole),
        share=line.share,
        above=steps_above(line, probe.unit, probe.whole),
        instances_before=line.instances_before,
        between=between,
        elements=elements_of(line),
    )


def fields_of(candidates: Sequence[Candidate]) -> List[page.FieldEntry]:
    """Returns what the page shows of candidates that hold something together."""
    return [page.FieldEntry(each.kind, each.name) for each in sorted(candidates, key=str)]


def steps_above(line: Line, unit: Unit, whole: Amount) -> List[page.StepEntry]:
    """Returns the steps of a path above its line, with their shares of `whole`. If the path begins at a field, the
    nearest of the roots that lead there comes first."""
    steps = [page.StepEntry(fields_of(each.candidates), share_of(each.amount, unit, whole)) for each in line.above]
    if line.roots:
        nearest = line.roots.roots[0]
        steps.insert(0, page.StepEntry([page.FieldEntry(nearest.kind, nearest.name)], others=line.roots.others))
    return steps


def share_of(amount: Amount, unit: Unit, whole: Amount) -> page.HeldShare:
    """Returns an amount, and its share of `whole`."""
    return page.HeldShare(amount, unit.percent(amount, whole))


def steps_from(path: str, lines: Sequence[Line], names: Sequence[str], follows_weak: bool) -> List[page.NextStep]:
    """Returns commands on the dump `path` that say more: of the first line, and of the first of the classes `names`, of
    own classes if there is one. They follow weak references if the lines do. `held` has no word for all threads."""
    steps, options = [], ["--weak"] * follows_weak
    if lines and all(each.name for each in lines[0].held.candidates):
        fields = ", ".join(sorted(map(str, lines[0].held.candidates)))
        command = command_line(["held", *options], path, fields)
        steps.append(page.NextStep("All that it retains, class by class", command))
    for name in [*filter(is_own, names), *names][:1]:
        purpose = f"What holds objects of {name}, also if it did not grow"
        steps.append(page.NextStep(purpose, command_line(["holders", *options], path, name)))
    return steps


def command_line(command: Sequence[str], *operands: str) -> str:
    """Returns a command, with its options, and its operands as a shell reads them."""
    ends = ["--"] * any(operand.startswith("-") for operand in operands)
    return " ".join(map(shlex.quote, [*command, *ends, *operands]))


def making_of(words: Sequence[str], heapmark: Heapmark, began: float) -> page.Making:
    """Returns how the figures were found: by these words of a command line, since `began`."""
    command = " ".join(map(shlex.quote, ["leaks", *words]))
    versions = [("leaks", VERSION), ("heapmark", heapmark.version()), ("Python", platform.python_version())]
    now = time.time()
    return page.Making(command, heapmark.runs, now - began, int(1000 * now), versions)


def write_page(path: str, content: page.Content) -> None:
    """Writes the page into the file `path`."""
    try:
        page.save(content, path)
    except OSError as fault:
        raise Fault(UNWRITABLE, f"{path}: the page cannot be written: {fault.strerror}") from None


def require_place(path: str) -> None:
    """Raises `Fault` if a page cannot be written into the file `path`, or if that is a dump, before the dumps are
    searched."""
    if is_dump(path):
        raise Fault(WRONG_USE, f"{path}: a dump: --html wants the name of the page before the dumps")
    folder = os.path.dirname(os.path.realpath(path))
    if not path or os.path.isdir(path) or not os.access(path if os.path.exists(path) else folder, os.W_OK):
        raise Fault(UNWRITABLE, f"{path}: the page cannot be written")
