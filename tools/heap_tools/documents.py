"""The documents that `--json` prints: all that the lines and notes of a command say, for a program. docs/JSON.md lists
their fields."""

import json
import os
from typing import Any, Dict, Iterable, List, Optional, Sequence

from heap_tools.candidates import Candidate
from heap_tools.class_growth import ClassGrowth
from heap_tools.dump_runs import DumpRuns
from heap_tools.field_list import Entry
from heap_tools.heap_layout import Layout
from heap_tools.heap_sizes import ClassSize, HeapSizes
from heap_tools.probe import Probe, Retained
from heap_tools.reports import Amount, Report, Unit
from heap_tools.snapshots import Snapshot
from heap_tools.version import VERSION

#: The number of the form. It rises if a field goes or changes its meaning; a field that comes does not raise it.
FORMAT = 1

#: The fields of a document, or of a part of one.
JsonObject = Dict[str, Any]


def document(tool: str, fields: JsonObject, notes: Iterable[str]) -> str:
    """Returns the document of `tool` with these fields, in ASCII. Raises `ValueError` if one is no finite number."""
    every = {"format": FORMAT, "tool": tool, "version": VERSION, **fields, "notes": list(notes)}
    return json.dumps(every, indent=2, allow_nan=False) + "\n"


def amount_entry(amount: Amount) -> JsonObject:
    """Returns an amount."""
    return {"objects": amount.objects, "bytes": amount.bytes}


def share_entry(percent: float) -> float:
    """Returns a share in percent, to two decimals."""
    return round(percent, 2)


def file_entry(path: str, kind: str, time: Optional[int], report: Report) -> JsonObject:
    """Returns a file of the command line, with the totals of its report. A histogram has none. Each byte of the path
    that is not UTF-8 is `\\x` and two digits."""
    has_totals = kind != "histogram"
    return {
        "path": os.fsencode(path).decode(errors="backslashreplace"),
        "kind": kind,
        "time_ms": time,
        "bytes_of": "heap" if report.in_heap else "dump",
        "reachable": amount_entry(report.reachable) if has_totals else None,
        "unreachable": amount_entry(report.unreachable) if has_totals else None,
        "unresolved": report.unresolved if has_totals else None,
    }


def dump_entry(runs: DumpRuns) -> JsonObject:
    """Returns a dump of the command line."""
    return file_entry(runs.path, "dump", runs.dump.time, runs.report)


def candidates_entry(candidates: Sequence[Candidate]) -> List[JsonObject]:
    """Returns what is one step of a path, and how `held` is asked for it: most often one candidate, else what holds
    something only together."""
    return [{"kind": each.kind, "name": each.name, "text": str(each)} for each in sorted(candidates, key=str)]


def holder_entry(held: Retained, percent: float) -> JsonObject:
    """Returns a line of `holders`."""
    return {
        "fields": candidates_entry(held.candidates),
        "retained": amount_entry(held.amount),
        "share_percent": share_entry(percent),
        "instances": held.instances,
    }


def class_size_entry(each: ClassSize) -> JsonObject:
    """Returns a class or a package of `sizes`."""
    name = {"name": each.name, "all": amount_entry(each.every)}
    return {**name, "reachable": amount_entry(each.reachable), "unreachable": amount_entry(each.unreachable)}


def layout_entry(layout: Optional[Layout]) -> Optional[JsonObject]:
    """Returns a layout, `None` if there is none."""
    return None if layout is None else {**layout._asdict(), "placing": layout.placing.value}


def sizes_fields(
    runs: DumpRuns, sizes: HeapSizes, shown: Sequence[ClassSize], is_by_package: bool, hidden: int
) -> JsonObject:
    """Returns the fields of the document of `sizes`: the classes or packages that are shown, and the number of the
    others."""
    return {
        "file": dump_entry(runs),
        "layout": layout_entry(sizes.layout),
        "all": amount_entry(sizes.every),
        "reachable": amount_entry(sizes.in_dump.reachable),
        "unreachable": amount_entry(sizes.in_dump.unreachable),
        "omitted": amount_entry(sizes.omitted),
        "waiting_stacks": amount_entry(sizes.stacks),
        "packages" if is_by_package else "classes": [class_size_entry(each) for each in shown],
        "hidden": hidden,
    }


def growth_entry(growth: ClassGrowth, unit: Unit, hours: Optional[float]) -> JsonObject:
    """Returns how a class grew: `steps` and the growth per hour are in the unit of the document."""
    per_hour = round(unit.of(growth.amount) / hours, 2) if hours else None
    return {
        "class": growth.name,
        "growth": amount_entry(growth.amount),
        "steps": list(growth.steps),
        "growth_per_hour": per_hour,
    }


def grown_fields(
    snapshots: Sequence[Snapshot], shown: Sequence[ClassGrowth], hidden: int, unit: Unit, hours: Optional[float]
) -> JsonObject:
    """Returns the fields of the document of `grown`: the classes that are shown, and the number of the others."""
    return {
        "files": [file_entry(each.path, each.kind, each.time, each.report) for each in snapshots],
        "unit": unit.value,
        "hours": None if hours is None else round(hours, 4),
        "classes": [growth_entry(each, unit, hours) for each in shown],
        "hidden": hidden,
    }


def holders_fields(probe: Probe, at_least: float, shown: Sequence[Retained], hidden: int, rest: int) -> JsonObject:
    """Returns the fields of the document of `holders`: the lines that are shown, the number of the others, and how much
    is held without any static field."""
    return {
        "file": dump_entry(probe.runs),
        "class": probe.families[0] if probe.families else None,
        "unit": probe.unit.value,
        "at_least_percent": at_least,
        "whole": amount_entry(probe.whole),
        "lines": [holder_entry(held, probe.share(held.candidates)) for held in shown],
        "hidden": hidden,
        "without_statics": rest,
    }


def held_fields(
    file: JsonObject, entries: Sequence[Entry], found: Sequence[ClassGrowth], unit: Unit, total: Amount
) -> JsonObject:
    """Returns the fields of the document of `held`."""
    return {
        "file": file,
        "unit": unit.value,
        "fields": [{"text": each.text, "problem": each.problem or None} for each in entries],
        "retained": amount_entry(total),
        "classes": [{"class": each.name, "retained": amount_entry(each.amount)} for each in found],
    }
