#!/usr/bin/env python3
"""Copies a heap dump without the strings that no other record refers to: most of a small dump.

A virtual machine writes all symbols that it has, such as the names and signatures of all methods of loaded classes. The
copy keeps those that are the name of a class, of a field, or of what a stack frame names. All its other bytes are those
of DUMP. Prints how many strings were left out, and how many were kept.
"""

from __future__ import annotations

import argparse
import pathlib
import sys

sys.path.insert(0, str(pathlib.Path(__file__).resolve().parent.parent / "tools"))
sys.dont_write_bytecode = True
from heap_tools.heap_dump import HeapDump
from heap_tools.hprof_format import FRAME, HEADER_SIZE, LOAD_CLASS, RECORD_HEAD_SIZE, STRING


def used_names(dump: HeapDump) -> set[int]:
    """Returns the identifiers of the strings that the records of a dump refer to. A frame names a method, its signature
    and its source file."""
    used: set[int] = set(dump.field_names)
    size = dump.id_size
    for tag, at, _ in dump.records():
        if tag == LOAD_CLASS:
            used.add(dump.id(at + 8 + size))
        elif tag == FRAME:
            used.update(dump.id(at + number * size) for number in (1, 2, 3))
    return used


def main() -> int:
    parser = argparse.ArgumentParser(description=__doc__, formatter_class=argparse.RawDescriptionHelpFormatter)
    parser.add_argument("dump", metavar="DUMP", type=pathlib.Path)
    parser.add_argument("copy", metavar="COPY", type=pathlib.Path)
    words = parser.parse_args()
    if not words.dump.is_file() or words.copy.exists() and words.copy.samefile(words.dump):
        parser.error("DUMP is a file, and COPY another one")
    omitted, kept = 0, 0
    with open(words.copy, "wb") as copy:
        dump = HeapDump(words.dump.read_bytes(), nameless=True)
        used = used_names(dump)
        copy.write(dump.bytes[:HEADER_SIZE])
        for tag, at, end in dump.records():
            if tag == STRING and dump.id(at) not in used:
                omitted += 1
            else:
                kept += tag == STRING
                copy.write(dump.bytes[at - RECORD_HEAD_SIZE : end])
    print(f"{omitted} strings left out, {kept} kept")
    return 0


if __name__ == "__main__":
    sys.exit(main())
