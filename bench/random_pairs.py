#!/usr/bin/env python3
"""Tests each figure of tools/leaks on pairs of small dumps made at random, and compares it with an older tools/leaks.

Each number from FIRST on, COUNT of them, is the seed of a program (`random_programs.py`). Dumps of it before and after
are written to a temporary folder, and `tools/leaks --json BEFORE AFTER` reads them. heapmark and retained are the
binaries of crates/, or what the variables HEAPMARK and RETAINED name. In every fourth pair bytes are those of the heap,
else those of the dump.

A marker that knows only the program (`random_marks.py`) then finds how much grew and is in no line, and of each line:

    what it held and holds, its share, its instances and its elements
    which objects hold most, and how much
    that each step of its path holds all that the next one does
    that the roots above it lead there, and that there are no others if it says so
    that less is gained without each of several that hold something together

Prints a table with tabs, a row for each seed: how both tools differ (`-` without OLD) in line 1 and in notes; `right`,
or which figures of the new one are wrong; line 1 and its share by the new tool and by the old one; what the holder in
each gained, in percent of the growth, by the marker; and both documents. Exit status 1 if a figure is wrong.
"""

from __future__ import annotations

import argparse
import concurrent.futures
import json
import os
import pathlib
import re
import subprocess
import sys
import tempfile
from itertools import repeat
from typing import Optional

TOP = pathlib.Path(__file__).resolve().parent.parent
sys.dont_write_bytecode = True
for NAME in ("heapmark", "retained"):
    os.environ.setdefault(NAME.upper(), str(TOP / f"crates/{NAME}/out/{NAME}"))

from random_marks import Document, Judge, holder_of, keys_of, pair_of  # noqa: E402
from random_programs import Program, in_heap  # noqa: E402

#: What is not kept of a document.
LEFT_OUT = {"files", "direct_bytes", "ran_out", "seconds", "runs", "tool", "version", "heap_capacity_bytes"}
#: The kinds of notes that both tools have, by what is in one.
NOTES = {
    "object": r"^line 1: .* (hold|holds|gained)( most)?: ",
    "weak": "held by .*references",
    "threads": "thread.* more: ",
    "classes": "only objects of",
}
#: The columns of the table.
HEADS = ("seed", "difference", "notes", "figures", "line", "share", "old line", "old share", "gain", "gain of old")
DOCUMENTS = ("new document", "old document")


def difference(new: Document, old: Document, judge: Judge) -> str:
    """Returns how line 1 of two documents differs: which holder is above the other one, and which gained more."""
    one, other = holder_of(new), holder_of(old)
    if not one or not other:
        return "no line" if one == other else "only the new one has a line" if one else "only the old one has a line"
    if one == other:
        figures = [[pair_of(it["lines"][0][name]) for name in ("before", "retained")] for it in (new, old)]
        if figures[0] != figures[1] or new["unit"] != old["unit"]:
            return "same holder, other figures"
        paths = [[keys_of(step) for step in it["lines"][0]["path"]] for it in (new, old)]
        return "same" if paths[0] == paths[1] else "same holder, other path"
    held = [judge.sides[1].held(judge.cut, group) for group in (one, other)]
    both, shares = held[0] & held[1], [round(judge.share(group)) for group in (one, other)]
    where = "below" if held[0] <= held[1] else "above" if both == held[1] else "overlapping" if both else "beside"
    size = "larger" if shares[0] > shares[1] else "smaller" if shares[0] < shares[1] else "as large"
    known = [keys_of(line["path"][-1]) for line in old["lines"]]
    return f"{where}, {size}, {'in' if one in known else 'not in'} the old lines"


def notes_differ(new: Document, old: Document) -> str:
    """Returns which notes on the first line or on both dumps only one of two documents has, or has in other words."""
    every = [
        {kind: sorted(it for it in each["notes"] if re.search(of, it)) for kind, of in NOTES.items()}
        for each in (new, old)
    ]
    found = []
    for kind in NOTES:
        one, other = every[0][kind], every[1][kind]
        if one != other:
            found.append(f"{kind}: {'other' if one and other else 'only new' if one else 'only old'}")
    return ", ".join(found) or "same"


def document_of(tool: str, seed: int) -> Document:
    """Runs a tool on the pair of a seed, and returns what it prints."""
    with tempfile.TemporaryDirectory() as room:
        paths = [os.path.join(room, name) for name in ("before.hprof", "after.hprof")]
        for after, path in enumerate(paths):
            Program(seed, bool(after)).write(path)
        words = [tool, "--json", *([] if in_heap(seed) else ["--dump-bytes"]), *paths]
        ran = subprocess.run(words, stdout=subprocess.PIPE, stderr=subprocess.PIPE, check=False)
    if ran.returncode not in (0, 3):
        raise ValueError(f"{tool}: status {ran.returncode}: {ran.stderr.decode().strip()}")
    document: Document = json.loads(ran.stdout)
    return {name: document[name] for name in document if name not in LEFT_OUT}


def row_of(seed: int, old: Optional[str], known: Optional[Document]) -> str:
    """Runs the tools on the pair of a seed, but not the old one if it is known what it prints. Returns the row."""
    try:
        new = document_of(str(TOP / "tools/leaks"), seed)
        return row(seed, new, document_of(old, seed) if old and known is None else known)
    except ValueError as fault:
        return "\t".join([str(seed), "-", "-", " ".join(str(fault).split())])


def row(seed: int, new: Document, old: Optional[Document]) -> str:
    """Returns the row of a seed, of which these are the documents."""
    judge = Judge(seed, new)
    wrong = "; ".join(judge.judge()) or "right"
    figures = [difference(new, old, judge), notes_differ(new, old), wrong] if old else ["-", "-", wrong]
    for each in (new, old or {"lines": []}):
        lines = each["lines"][:1]
        figures += [line_text(line) for line in lines] or ["-"]
        figures += [f"{line['share_percent']:.1f}" for line in lines] or ["-"]
    figures += [f"{judge.share(holder_of(each)):.1f}" for each in (new, old or new)]
    return "\t".join([str(seed), *figures, *(json.dumps(each, separators=(",", ":")) for each in (new, old))])


def line_text(line: Document) -> str:
    """Returns the path of a line in words."""
    return " > ".join(", ".join(each["text"] for each in step) for step in line["path"])


def main() -> int:
    """Does what the top of this file says, and returns the exit status."""
    parser = argparse.ArgumentParser(description=__doc__, formatter_class=argparse.RawDescriptionHelpFormatter)
    parser.add_argument("first", metavar="FIRST", type=int, help="the first seed")
    parser.add_argument("count", metavar="COUNT", type=int, help="how many seeds")
    parser.add_argument("--old", metavar="OLD", help="an older tools/leaks, or a TSV of an earlier run with it")
    parser.add_argument("--processes", metavar="N", type=int, default=2, help="how many pairs at a time (default: 2)")
    given = parser.parse_args()
    seeds, known, tool = range(given.first, given.first + given.count), dict[int, Document](), given.old
    if tool and tool.endswith(".tsv"):
        rows = (row.rstrip("\n").split("\t") for row in open(tool, encoding="utf-8"))
        known, tool = {int(row[0]): json.loads(row[-1]) for row in rows if row[0].isdigit()}, None
    is_right = True
    with concurrent.futures.ProcessPoolExecutor(given.processes) as pool:
        print("\t".join([*HEADS, *DOCUMENTS]), flush=True)
        for row in pool.map(row_of, seeds, repeat(tool), map(known.get, seeds)):
            print(row, flush=True)
            is_right = is_right and row.split("\t")[3] == "right"
    return 0 if is_right else 1


if __name__ == "__main__":
    sys.exit(main())
