"""The pages of `leaks --html` and `sizes --html`: each is one HTML file that fetches nothing and runs no script.

`model.py` has what the tools fill. `comparison_page.py` is the page of two or more dumps, `dump_page.py` that of one,
and `sizes_page.py` that of `sizes`;
`sections.py` has what both have. The parts of the first are `top.py`, `chart.py` with `chart_lines.py` and
`chart_labels.py`, `small_lines.py`, `holders.py` and `classes.py`, those of the other `fullness.py` and `suspects.py`.
`objects.py`, `made_of.py`, `treemap.py`, `treemap_picture.py` and `tables.py` are of both. `templates.py` escapes and
fills, `names.py` and `words.py` spell; `page.html` has all templates, `page.css` the style.
"""

import contextlib
import os
import stat
from typing import Callable, Union

from heap_tools.candidates import FIELD, LOCAL, MACHINE_ROOT, STATIC, THREAD, THREADS
from heap_tools.page import comparison_page, dump_page, sizes_page
from heap_tools.page.model import DumpEntry, FieldEntry, GrownClass, HeldShare, HolderEntry, Leak, Limits, Making
from heap_tools.page.model import NameEntry, NextStep, ObjectEntry, OneDump, ProgramEntry, RanOutEntry, StepEntry
from heap_tools.page.model import ShareEntry, SuspectEntry, ThreadGroupEntry
from heap_tools.page.sizes_page import Sizes
from heap_tools.reports import Amount, Row, Unit

__all__ = [
    "Amount",
    "DumpEntry",
    "FIELD",
    "FieldEntry",
    "GrownClass",
    "HeldShare",
    "HolderEntry",
    "LOCAL",
    "Leak",
    "Limits",
    "MACHINE_ROOT",
    "Making",
    "NameEntry",
    "NextStep",
    "ObjectEntry",
    "OneDump",
    "ProgramEntry",
    "RanOutEntry",
    "Row",
    "STATIC",
    "ShareEntry",
    "Sizes",
    "StepEntry",
    "SuspectEntry",
    "THREAD",
    "THREADS",
    "ThreadGroupEntry",
    "Unit",
    "html_of",
    "save",
]

#: What a page can be of.
Content = Union[Leak, OneDump, Sizes]
#: The most bytes of a page.
MOST_BYTES = 300_000
#: How much is shown. The first that gives a page of at most `MOST_BYTES` is taken; only odd names need the later ones.
LIMITS = [
    Limits(name=240, holders=20, steps=6, grown=30, groups=8, parts=9, dumps=40, sentences=30),
    Limits(name=120, holders=12, steps=5, grown=20, groups=8, parts=6, dumps=20, sentences=20),
    Limits(name=60, holders=10, steps=4, grown=10, groups=6, parts=4, dumps=10, sentences=10),
    Limits(name=40, holders=8, steps=3, grown=8, groups=2, parts=2, dumps=8, sentences=8),
]


def html_of(content: Content) -> str:
    """Returns the page, at most `MOST_BYTES` in UTF-8."""
    for limits in LIMITS:
        if isinstance(content, OneDump):
            text = dump_page.page_of_dump(content, limits)
        elif isinstance(content, Sizes):
            text = sizes_page.page_of_sizes(content, limits)
        else:
            text = comparison_page.page_of_dumps(content, limits)
        if len(text.encode()) <= MOST_BYTES:
            break
    return str(text)


def save(content: Content, file: str) -> None:
    """Writes the page into the file at the path `file`. Raises `OSError` if it cannot be written. A plain file then is
    as it was before, and never has a part of the page."""
    written = html_of(content).encode()
    if os.path.exists(file) and not stat.S_ISREG(os.stat(file).st_mode):
        write_into(os.open(file, os.O_WRONLY), written)
        return
    place = os.path.realpath(file)
    part = os.path.join(os.path.dirname(place), f".leaks-{os.urandom(8).hex()}.part")
    try:
        write_into(os.open(part, os.O_WRONLY | os.O_CREAT | os.O_EXCL, 0o666), written, os.fsync)
        os.replace(part, place)
    except BaseException:
        with contextlib.suppress(FileNotFoundError):
            os.unlink(part)
        raise


def write_into(descriptor: int, content: bytes, finish: Callable[[int], None] = lambda descriptor: None) -> None:
    """Writes all of `content`, calls `finish`, and closes the descriptor."""
    with open(descriptor, "wb", buffering=0) as file:
        rest = memoryview(content)
        while rest:
            rest = rest[file.write(rest) :]
        finish(descriptor)
