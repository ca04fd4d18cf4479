"""The documents that `leaks --json` prints, of one dump and of several. docs/JSON.md lists their fields."""

from typing import List, NamedTuple, Optional, Sequence

from heap_tools.comparison import Comparison, NoGrowth
from heap_tools.direct_buffers import direct_memory
from heap_tools.documents import JsonObject, amount_entry, candidates_entry, dump_entry, share_entry
from heap_tools.dump_runs import DumpRuns
from heap_tools.humanize import counted
from heap_tools.leak_answer import Answer
from heap_tools.leak_lines import Line, LineObjects
from heap_tools.leak_notes import Notes, grown_own_classes
from heap_tools.leak_options import Options
from heap_tools.one_dump import HeapAnswer, contents_of
from heap_tools.one_dump_notes import HeapNotes
from heap_tools.path_roots import RootsAbove
from heap_tools.probe import Probe
from heap_tools.reports import Amount, Report, Row
from heap_tools.which_object import HoldingObject


class Cost(NamedTuple):
    """What an answer cost: the fields that were tried, the runs of heapmark and of retained, and the seconds."""

    fields: int
    of_heapmark: int
    of_retained: int
    seconds: float

    @property
    def runs(self) -> int:
        """The runs of both programs."""
        return self.of_heapmark + self.of_retained

    def __str__(self) -> str:
        fields, runs = counted(self.fields, "field"), counted(self.of_heapmark, "run")
        return f"{fields}, {runs} of heapmark and {self.of_retained} of retained, {self.seconds:.1f} s"


def fields_of_one(answer: HeapAnswer, notes: HeapNotes, cost: Cost) -> JsonObject:
    """Returns the fields of the document of one dump."""
    question, probe = answer.question, answer.question.probe
    return {
        "files": [dump_entry(question.runs)],
        **question_entry(probe, answer.found, question.followed.is_any),
        "whole": amount_entry(probe.growth),
        "growth": None,
        **lines_entry(answer.found, is_growth=False),
        "contents": contents_entry(answer.contents),
        "own_classes": [],
        "more_threads": [],
        "ran_out": [{"thread": it.name, "methods": it.methods, "before_own": it.before_own} for it in notes.ran_out],
        "direct_bytes": [notes.direct.bytes],
        "heap_capacity_bytes": notes.capacity,
        **cost_entry(cost),
    }


def fields_of_growth(comparison: Comparison, answer: Answer, notes: Notes, cost: Cost) -> JsonObject:
    """Returns the fields of the document of two dumps or more."""
    probe, lines = comparison.probe, answer.lines
    return {
        "files": [dump_entry(each) for each in comparison.dumps],
        **question_entry(probe, answer, comparison.follows_weak),
        "whole": amount_entry(probe.whole),
        "growth": amount_entry(answer.whole),
        **lines_entry(answer, is_growth=True),
        "contents": contents_entry(contents_of(lines[0].held, probe.unit)) if lines else [],
        "own_classes": own_classes_entry([each.report for each in comparison.dumps]),
        "more_threads": [
            {"pattern": it.pattern, "before": it.before, "after": it.after, "methods": it.frames}
            for it in notes.threads
        ],
        "ran_out": [],
        "direct_bytes": [direct_memory(each.dump).bytes for each in (comparison.first, comparison.last)],
        "heap_capacity_bytes": None,
        **cost_entry(cost),
    }


def fields_of_nothing(
    dumps: Sequence[DumpRuns], families: Optional[List[str]], options: Options, none: Optional[NoGrowth], cost: Cost
) -> JsonObject:
    """Returns the fields of a document without lines: of dumps between which nothing grew (`none`), or of one that has
    no reachable object of the class."""
    return {
        "files": [dump_entry(each) for each in dumps],
        "unit": options.unit.value,
        "classes": families,
        "at_least_percent": options.bounds.first,
        "follows_weak": options.weak,
        "whole": amount_entry(none.whole if none else Amount()),
        "growth": amount_entry(none.growth) if none else None,
        "lines": [],
        "hidden": 0,
        "left": amount_entry(none.growth if none else Amount()),
        "contents": [],
        "own_classes": [],
        "more_threads": [],
        "ran_out": [],
        "direct_bytes": [],
        "heap_capacity_bytes": None,
        **cost_entry(cost),
    }


def question_entry(probe: Probe, answer: Answer, follows_weak: bool) -> JsonObject:
    """Returns what was asked."""
    return {
        "unit": probe.unit.value,
        "classes": probe.families,
        "at_least_percent": answer.search.at_least,
        "follows_weak": follows_weak,
    }


def cost_entry(cost: Cost) -> JsonObject:
    """Returns what an answer cost."""
    return {"fields_tried": cost.fields, "runs": cost.runs, "seconds": round(cost.seconds, 1)}


def lines_entry(answer: Answer, is_growth: bool) -> JsonObject:
    """Returns the lines, how many more there are, and what is in none of them."""
    lines = [line_entry(each, is_growth) for each in answer.lines]
    return {"lines": lines, "hidden": answer.hidden, "left": amount_entry(answer.left)}


def line_entry(line: Line, is_growth: bool) -> JsonObject:
    """Returns a line: what was held before only if there is a dump of that."""
    return {
        "path": [candidates_entry(each.candidates) for each in [*line.above, line.held]],
        "text": line.path(),
        "is_own": line.held.is_own,
        "before": amount_entry(line.before) if is_growth else None,
        "retained": amount_entry(line.held.amount),
        "share_percent": share_entry(line.share),
        "instances_before": line.instances_before if is_growth else None,
        "instances": line.instances,
        "elements_before": line.elements_before,
        "elements": line.elements,
        "objects": objects_entry(line.objects),
        "held_by": roots_entry(line.roots),
    }


def own_classes_entry(reports: Sequence[Report]) -> List[JsonObject]:
    """Returns the own classes of which there are more objects."""
    return [{"class": each.name, "growth": amount_entry(each.amount)} for each in grown_own_classes(reports)]


def objects_entry(found: Optional[LineObjects]) -> Optional[JsonObject]:
    """Returns which objects gained or hold most of a field, and which field that is."""
    if not found:
        return None
    return {"field": candidates_entry(found.held.candidates), "objects": [object_entry(each) for each in found.objects]}


def roots_entry(found: Optional[RootsAbove]) -> Optional[JsonObject]:
    """Returns the roots above a path that begins at a field."""
    if not found:
        return None
    roots = [{"kind": each.kind, "name": each.name, "text": str(each)} for each in found.roots]
    return {"roots": roots, "are_all": found.are_all}


def object_entry(found: HoldingObject) -> JsonObject:
    """Returns an object, and what names it."""
    return {
        "class": found.class_name,
        "names": [{"how": each.how, "text": each.text} for each in found.names],
        "retained": amount_entry(found.amount),
        "share_percent": share_entry(found.percent),
        "share_of": "growth" if found.has_gained else "retained",
        "of": found.of,
        "is_element": found.is_element,
    }


def contents_entry(rows: Sequence[Row]) -> List[JsonObject]:
    """Returns what the first line retains, class by class."""
    return [{"class": row.name, "retained": amount_entry(row.amount)} for row in rows]
