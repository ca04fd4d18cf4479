"""The kinds of weak references: soft, weak, final and phantom ones, each by itself."""

import enum
from collections import Counter
from typing import Optional

from heap_tools.candidates import WEAK
from heap_tools.class_names import is_own
from heap_tools.heap_dump import HeapDump
from heap_tools.heap_objects import HeapObjects
from heap_tools.thread_counts import method_of

#: How many methods of a thread are said.
OWN_METHODS = 3


class WeakKind(enum.Enum):
    """A kind of references. The value is the class that they inherit from."""

    FINAL = "java/lang/ref/FinalReference"
    PHANTOM = "java/lang/ref/PhantomReference"
    WEAK = "java/lang/ref/WeakReference"
    #: What only soft ones hold is freed when memory is short: a cache, and no leak.
    SOFT = "java/lang/ref/SoftReference"

    @property
    def noun(self) -> str:
        """What a user calls it."""
        return self.name.lower()


#: The threads of the virtual machine that handle what references of a kind name. If one is blocked, these pile up.
HANDLERS = {WeakKind.FINAL: "Finalizer", WeakKind.PHANTOM: "Common-Cleaner"}


def weak_kind_of(dump: HeapDump, class_id: int) -> Optional[WeakKind]:
    """Returns the kind of the references of a class, None if it is of no kind."""
    kinds = {each.value: each for each in WeakKind}
    names = (dump.names[each] for each in dump.lineage(class_id))
    return next((kinds[name] for name in names if name in kinds), None)


def usual_class(dump: HeapDump, kind: WeakKind) -> str:
    """Returns the class that most references of a kind are of which have a referent, or the kind's own if there are
    none. Walks over all objects."""
    objects = HeapObjects(dump)
    classes = (objects.class_of(each.instance) for each in objects.values_of([WEAK]) if dump.id(each.value))
    found = Counter(dump.names[class_id] for class_id in classes if weak_kind_of(dump, class_id) is kind)
    return found.most_common(1)[0][0] if found else kind.value


def handler_words(dump: HeapDump, kind: WeakKind) -> str:
    """Returns in words which own methods the thread is in that handles a kind, empty if it is in none: then it waits
    for the next reference."""
    name = HANDLERS.get(kind)
    threads = [thread for thread, called in HeapObjects(dump).thread_names().items() if called == name]
    stack = dump.stack(threads[0]) if threads else []
    own = next((number for number, frame in enumerate(stack) if is_own(frame.class_name)), None)
    if own is None:
        return ""
    return f'; thread "{name}" is in {", ".join(map(method_of, stack[own : own + OWN_METHODS]))}'
