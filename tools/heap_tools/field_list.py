"""A list of fields as a user writes it, or a line of `holders` or `leaks`, and where the fields are in a dump."""

import os
import re
from typing import List, NamedTuple, Optional, Tuple

from heap_tools.candidates import LOCAL, STATIC, THREAD, THREADS, Candidates, Key
from heap_tools.class_lookup import why_no_field, why_unknown
from heap_tools.class_names import families, family, shown, spellings
from heap_tools.faults import WRONG_USE, Fault
from heap_tools.heap_dump import HeapDump
from heap_tools.hprof_format import OBJECT
from heap_tools.label_text import Place
from heap_tools.thread_counts import NAMELESS

#: What a line of `holders` calls by these words.
NOUNS = {LOCAL: "local variable", THREAD: "thread", THREADS: "group of threads"}
#: What is between the steps of a path, and the word before a static field.
STEP, STATIC_WORD = " > ", "static "


class Entry(NamedTuple):
    """An entry of a list, as it is spelt, and why it names nothing in a dump, empty if it does."""

    text: str
    problem: str


def entries_of(text: str) -> List[str]:
    """Returns the entries of a list of fields, which may be a line of holders or leaks. Raises `Fault` if the line says
    only how many more there are. Names of threads are in quotes, and have none."""
    last = re.sub("^ *[0-9]+ +[0-9]+ +[0-9]+% +[0-9 ]+ (to [0-9]+ +)?", "", text)
    step = masked(last).rfind(STEP)
    last = re.sub("^together ", "", last[step + len(STEP) :] if step >= 0 else last)
    more = re.search(r" \.\. and ([0-9]+) more$", masked(last))
    if more:
        raise Fault(WRONG_USE, f"{text}: the line names not all of these fields: with --json, all are named")
    return [entry.strip() for entry in split(last)]


def masked(text: str) -> str:
    """Returns a text of the same length without what is in quotes."""
    return re.sub('"[^"]*"', lambda quoted: "_" * len(quoted[0]), text)


def split(text: str) -> List[str]:
    """Returns the parts of a list with commas between, which count only outside of quotes."""
    commas = [each.start() for each in re.finditer(",", masked(text))]
    return [text[begin + 1 : end] for begin, end in zip([-1, *commas], [*commas, len(text)])]


def root_of(entry: str) -> Optional[Key]:
    """Returns the kind and the name of the local variable or the threads that an entry is, or None if it is a field.
    Names have no blanks, and those of threads no quotes. Lines call threads without a name `thread`, and count them as
    `threads without a name`."""
    if re.fullmatch(f"thread|threads? {NAMELESS}", entry):
        return THREAD, ""
    found = re.fullmatch(r"(local|threads?) (\S+|\"[^\"]*\")", entry)
    return (found[1], found[2].strip('"')) if found else None


def field_of(entry: str) -> str:
    """Returns the field that an entry is, without the word for a static one."""
    return entry[len(STATIC_WORD) :] if entry.startswith(STATIC_WORD) else entry


def classes_named(text: str, dump: HeapDump) -> List[int]:
    """Returns the identifiers of the classes that `text` names: those of that name, or all of its family."""
    exact, wanted = set(spellings(text)), set(families(text))
    found = [class_id for class_id, name in dump.names.items() if name in exact]
    return found or [class_id for class_id, name in dump.names.items() if family(name) in wanted]


def places_of(entry: str, candidates: Candidates) -> Tuple[List[Place], str]:
    """Returns the places of the references that `entry` names, and why there are none if there are none."""
    root = root_of(entry)
    if root:
        found = [*candidates.places(root)]
        return found, "" if found else f"no {NOUNS[root[0]]} of the dump has this name"
    return _places_of_field(entry, candidates)


def _places_of_field(entry: str, candidates: Candidates) -> Tuple[List[Place], str]:
    """Returns the places of a field, of a static one only if the entry says so, and why there are none if there are
    none."""
    dump, (name, _, field) = candidates.dump, field_of(entry).rpartition(".")
    class_ids = classes_named(name, dump)
    alike = candidates.places((STATIC, field_of(entry))) if entry.startswith(STATIC_WORD) and not class_ids else ()
    if alike:
        return [*alike], ""
    wanted = {field, shown(os.fsencode(field))}
    fields = [(it, each) for it in class_ids for each in dump.classes[it].fields if each.name in wanted]
    if entry.startswith(STATIC_WORD):
        fields = [(it, each) for it, each in fields if each.is_static]
    if any(each.kind == OBJECT for _, each in fields):
        return [place for it, each in fields for place in candidates.places_in(it, each)], ""
    if not class_ids:
        known = {family(each) for each in dump.names.values()}
        return [], f"no class of the dump is called {name}: {why_unknown(name, known)}"
    if not fields:
        declared = [each.name for class_id in class_ids for each in dump.classes[class_id].fields]
        return [], why_no_field(name, field, declared)
    return [], "this field holds numbers, no references"
