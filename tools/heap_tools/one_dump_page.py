"""What `leaks` shows of one dump on the page of `--html`."""

from heap_tools import page
from heap_tools.leak_lines import Line
from heap_tools.leak_notes import elements_of
from heap_tools.leak_options import Options
from heap_tools.one_dump import HeapAnswer
from heap_tools.one_dump_notes import HeapNotes
from heap_tools.page_content import (
    dump_of,
    fields_of,
    layout_sentence,
    objects_of,
    program_of,
    sentence_of,
    share_entries,
    share_of,
    steps_above,
    steps_from,
)
from heap_tools.probe import Probe


def page_of_one(answer: HeapAnswer, notes: HeapNotes, making: page.Making, options: Options) -> page.OneDump:
    """Returns what the page shows: unless `options` hide them, of the program, too, what values of the dump say."""
    question, probe = answer.question, answer.question.probe
    names = probe.families or [row.name for row in answer.contents]
    return page.OneDump(
        dump=dump_of(question.runs),
        suspects=[suspect_of(line, probe) for line in answer.lines],
        classes=question.runs.report.families,
        omitted=[],
        making=making,
        by=probe.unit,
        of_class=probe.families[0] if probe.families else None,
        program=program_of(question.runs, options.shows_values),
        next_steps=steps_from(question.runs.path, answer.lines, names, question.followed.is_any),
        objects=objects_of(answer.lines),
        contents=answer.contents,
        ran_out=[page.RanOutEntry(it.name, it.methods, it.before_own) for it in notes.ran_out],
        notes=[sentence_of(each) for each in [*notes.locals, *notes.others]],
        weak=sentence_of(notes.weak) if notes.weak else None,
        layout=layout_sentence(question.runs),
        capacity=notes.capacity,
        shares=share_entries(answer.lines, options.bounds.shows_all),
        shows_all=options.bounds.shows_all,
    )


def suspect_of(line: Line, probe: Probe) -> page.SuspectEntry:
    """Returns what the page shows of a line, with shares of all that is reachable."""
    held, above = line.held, steps_above(line, probe.unit, probe.growth)
    share = share_of(held.amount, probe.unit, probe.growth)
    return page.SuspectEntry(fields_of(held.candidates), line.instances, share, above, elements_of(line))
