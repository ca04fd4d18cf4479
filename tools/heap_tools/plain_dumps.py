"""Plain files that are to be dumps: what is tested before heapmark reads them."""

import os

from heap_tools.faults import UNREADABLE, Fault
from heap_tools.gzip_dump import UNPACKED, beginning, is_packed
from heap_tools.heapmark import opened
from heap_tools.hprof_format import MAGIC
from heap_tools.reports import LARGEST_DUMP, read_text


def is_dump(path: str) -> bool:
    """Tests whether a plain file begins as a dump does, compressed or not."""
    if not os.path.isfile(path):
        return False
    try:
        return beginning(path, len(MAGIC)) == MAGIC
    except OSError as fault:
        raise Fault(UNREADABLE, f"{path}: {fault.strerror}") from None


def require_plain_dump(path: str, tool: str) -> None:
    """Raises `Fault` if `path` is no plain file, which the tool has to read again, or is a report or a histogram."""
    if os.path.exists(path) and not os.path.isfile(path):
        raise Fault(UNREADABLE, f"{path}: no plain file, and {tool} reads it more than once")
    if is_dump(path) or not os.path.exists(path):
        return
    with opened(path) as file:
        found = read_text(file, path)
    if found:
        raise Fault(UNREADABLE, f"{path}: a {found[0]}: {tool} needs a dump")


def length_of(path: str) -> int:
    """Returns how many bytes the dump in a file has, 0 if there is no file. Of a compressed one that is not known until
    it is unpacked: then as many as a dump may have."""
    if is_packed(path):
        return UNPACKED[path].length if path in UNPACKED else LARGEST_DUMP
    return os.path.getsize(path) if os.path.exists(path) else 0
