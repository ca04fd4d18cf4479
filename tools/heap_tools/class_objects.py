"""Whether a dump has objects of a class, and why none is reachable."""

from heap_tools.class_names import family
from heap_tools.dump_runs import DumpRuns
from heap_tools.faults import NOTHING, WEAKLY_HELD, Fault
from heap_tools.object_totals import totals_of
from heap_tools.omissions import HIDDEN_HOLDERS
from heap_tools.reports import Report


def require_objects(name: str, runs: DumpRuns, base: Report) -> None:
    """Raises `Fault` if no object of the class `name` is reachable, in the report `base`, or not without weak
    references."""
    if runs.report.amount(name).objects == 0:
        of_family = {each for each in runs.dump.names.values() if family(each) == name} | {name}
        every = totals_of(runs.dump, None)
        count = sum(every[each].written.objects for each in of_family if each in every)
        inner = any(each.startswith(f"{name}$") for each in runs.dump.names.values())
        why = "the dump has no object of it" + ": did the shell take a $ away? quote the name" * inner
        if count:
            are = "is" if count == 1 else "are"
            why = f"no object of it is reachable, but {count:,} {are} in the dump: {HIDDEN_HOLDERS}"
        raise Fault(NOTHING, f"{name}: {why}")
    if base.amount(name).objects == 0:
        raise Fault(WEAKLY_HELD, f"{name}: only soft, weak, final or phantom references hold its objects: see --weak")
