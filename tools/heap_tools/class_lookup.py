"""The class that a user names, in the dumps and reports that are known."""

from typing import Dict, Iterable, List, Sequence

from heap_tools.class_names import alike, families, family, is_array, package
from heap_tools.close_names import close_names, did_you_mean
from heap_tools.faults import NO_SUCH_NAME, Fault
from heap_tools.heap_dump import HeapDump
from heap_tools.reports import Report


def family_of(text: str, dump: HeapDump, *reports: Report) -> str:
    """Returns the family that the user calls `text`: of a report if one has it, else of the dump. Raises `Fault` if
    neither has one."""
    known = {family(each) for each in dump.names.values()}
    for names in (*(report.families for report in reports), known):
        for one in families(text):
            if one in names:
                return one
    raise Fault(NO_SUCH_NAME, f"{text or repr(text)}: no class of the dump has this name: {why_unknown(text, known)}")


def why_unknown(text: str, known: Iterable[str]) -> str:
    """Returns what may be wrong with the name of a class that is not among the families `known`."""
    known = list(known)
    if any(name.startswith(f"{one}$") for one in families(text) for name in known):
        return "did the shell take a $ away? quote the name"
    near = alike(text, known) or close_classes(text, known)
    return did_you_mean(near).lstrip(": ") or "spell it as the report does, and in quotes"


def close_classes(text: str, known: Sequence[str]) -> List[str]:
    """Returns the classes whose simple name differs in few letters from that which `text` ends with, the closest first;
    of those as close, in the package of `text` if it has one."""
    of_array = any(map(is_array, families(text)))
    by_simple_name: Dict[str, List[str]] = {}
    for name in (each for each in known if is_array(each) == of_array):
        by_simple_name.setdefault(name.rpartition("/")[2], []).append(name)
    for one in families(text):
        found = [name for each in close_names(one.rpartition("/")[2], by_simple_name) for name in by_simple_name[each]]
        if found:
            return [name for name in found if package(name) == package(one)] or found
    return []


def why_no_field(class_name: str, field: str, declared: Iterable[str]) -> str:
    """Returns why a class has no field of this name, given the names of those that it has."""
    meant = did_you_mean(close_names(field, dict.fromkeys(declared)))
    return (
        f"{class_name} itself declares no such field{meant or ': javap -p lists its fields; a superclass may have it'}"
    )
