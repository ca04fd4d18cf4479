"""The file of a heap dump: its content, which is read once, and its state, by which it is seen whether it changed.

A virtual machine may write a new dump over one that a tool reads. So nothing of the file is mapped, and nothing is read
from it later: all that a tool finds is of the content that it had when heapmark accepted it.
"""

import contextlib
import os
from typing import Iterator, NamedTuple, Optional

from heap_tools.faults import UNREADABLE, Fault
from heap_tools.gzip_dump import unpacked
from heap_tools.heapmark import opened


class FileState(NamedTuple):
    """What is different after a file has changed: its length in bytes, its time of change in nanoseconds since 1970,
    and the numbers of the file and of its device."""

    length: int
    changed: int
    number: int
    device: int

    @classmethod
    def of(cls, status: os.stat_result) -> "FileState":
        """Returns the state that the system says of a file."""
        return cls(status.st_size, status.st_mtime_ns, status.st_ino, status.st_dev)


def state_of(path: str) -> Optional[FileState]:
    """Returns the state of a file, or None if there is none that can be asked for."""
    try:
        return FileState.of(os.stat(path))
    except (OSError, ValueError):  # a name with a null has no file
        return None


@contextlib.contextmanager
def unchanged(path: str, state: Optional[FileState]) -> Iterator[None]:
    """Raises `Fault` if the file `path`, which had the state `state`, has changed when the block ends: also in place of
    another fault, since that may be why."""
    try:
        yield
    except Fault:
        if state_of(path) != state:
            raise changed(path) from None
        raise
    if state_of(path) != state:
        raise changed(path)


def whole_content(path: str, state: Optional[FileState]) -> bytes:
    """Returns the content of the file `path`, which had the state `state` before heapmark read it; of a compressed one,
    what heapmark read. Raises `Fault` if it cannot be read, or if it has changed since then."""
    if state is None:
        raise changed(path)
    packed = unpacked(path)
    if packed:
        if FileState.of(packed.status) != state or state_of(path) != state:
            raise changed(path)
        return packed.content()
    with opened(path) as file:
        content = file.read(state.length + 1)
        after = FileState.of(os.fstat(file.fileno()))
    if after != state or len(content) != state.length:
        raise changed(path)
    return content


def changed(path: str) -> Fault:
    """Returns the fault that a file changed."""
    return Fault(UNREADABLE, f"{path}: it changed while it was read")
