"""Dumps that are compressed by gzip, as `jcmd PID GC.heap_dump -gz=1 FILE` writes them: unpacked once, into memory.

Nothing of it is on a disk: the content is in an anonymous file, which heapmark opens by a name of its own, as any other
dump. No more is unpacked than heapmark reads: one byte above its limit, by which it refuses what is too large, however
little the compressed file has.
"""

import gzip
import os
import weakref
import zlib
from typing import BinaryIO, Dict, Optional

from heap_tools.faults import UNREADABLE, Fault
from heap_tools.hprof_format import MAGIC
from heap_tools.reports import LARGEST_DUMP

#: What a compressed file begins with, and how many bytes are unpacked at a time.
GZIP, UNPACK_SIZE = b"\x1f\x8b", 1 << 20


class UnpackedDump:
    """The content of the compressed dump `path`, with the state that its file had before it was read. Raises `Fault` if
    it is damaged, and `OSError` if the system has no memory for it."""

    def __init__(self, path: str) -> None:
        if not hasattr(os, "memfd_create"):
            raise Fault(UNREADABLE, f"{path}: compressed: gunzip it first, or use Python 3.8 or later")
        self._file: int = os.memfd_create("dump", 0)  # programs that are started inherit it
        self.close = weakref.finalize(self, os.close, self._file)
        self.place, self.length = f"/dev/fd/{self._file}", 0
        with open(path, "rb") as file:
            self.status = os.fstat(file.fileno())
            try:
                self._unpack(file)
            except EOFError:
                raise Fault(
                    UNREADABLE, f"{path}: compressed, and ends too early: still being written, or cut"
                ) from None
            except zlib.error as why:
                raise damaged(path, why) from None
            except OSError as why:
                if why.errno:
                    raise
                raise damaged(path, why) from None

    def _unpack(self, file: BinaryIO) -> None:
        """Unpacks parts of the file, all of it if it begins as a dump and is no larger than one may be."""
        with gzip.GzipFile(fileobj=file) as packed:
            part = packed.read(UNPACK_SIZE)
            is_dump = part.startswith(MAGIC)
            while part:
                rest = memoryview(part)
                while rest:
                    rest = rest[os.write(self._file, rest) :]
                self.length += len(part)
                part = packed.read(min(UNPACK_SIZE, LARGEST_DUMP + 1 - self.length)) if is_dump else b""

    def content(self) -> bytes:
        """Returns all of it."""
        with open(self.place, "rb") as file:
            return file.read()


#: The dumps that were unpacked, by their paths: each is asked for several times.
UNPACKED: Dict[str, UnpackedDump] = {}


def unpacked(path: str) -> Optional[UnpackedDump]:
    """Returns the content of the dump `path` if it is compressed, else None. Raises as `UnpackedDump` does."""
    if path not in UNPACKED and is_packed(path):
        UNPACKED[path] = UnpackedDump(path)
    return UNPACKED.get(path)


def forget(path: str) -> None:
    """Gives the memory of an unpacked dump back."""
    found = UNPACKED.pop(path, None)
    if found:
        found.close()


def readable_name(path: str) -> str:
    """Returns the name by which programs that are started read the dump `path`. Raises as `UnpackedDump` does."""
    found = unpacked(path)
    return found.place if found else path


def is_packed(path: str) -> bool:
    """Tests whether `path` is a plain file that begins as a compressed one does. One that cannot be read is none."""
    try:
        if not os.path.isfile(path):
            return False
        with open(path, "rb") as file:
            return file.read(len(GZIP)) == GZIP
    except (OSError, ValueError):
        return False


def beginning(path: str, length: int) -> bytes:
    """Returns the first bytes of a plain file, at most `length`: of a compressed one those of its content, none if it
    is damaged. Raises `OSError` if the file cannot be read."""
    with open(path, "rb") as file:
        found = file.read(length)
        if not found.startswith(GZIP):
            return found
        file.seek(0)
        try:
            return gzip.GzipFile(fileobj=file).read(length)
        except (OSError, EOFError, zlib.error):
            return b""


def damaged(path: str, why: Exception) -> Fault:
    """Returns the fault that a compressed file is damaged."""
    return Fault(UNREADABLE, f"{path}: compressed, and damaged: {why}")
