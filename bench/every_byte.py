#!/usr/bin/env python3
"""Prints what the plain marker reports if one byte of a small dump is changed: at each offset, to each other value.

Prints crates/heapmark/src/tests/damage/answers.rt: a row for each range of values of one place with the same result,

    (place, first value, last value, code, at, mix)

For a refusal, `code` and `at` are its code and place, and `mix` is 0. For reports, `code` is 0, `at` the length of each
report, and `mix` a number mixed from the bytes of all in the order of the values (`mixed`). A range may contain the
dump's own value, which is not tried. Prints on standard error, for each code, the number of files and the sum of `at`.
"""

from __future__ import annotations

import argparse
import collections
import multiprocessing
import os
import re
import subprocess
import sys
import tempfile
from typing import NamedTuple, Optional, Tuple

TOP = os.path.dirname(os.path.dirname(os.path.abspath(__file__)))
DUMP = f"{TOP}/crates/heapmark/data/two_objects.hprof"
NAMES = f"{TOP}/bench/plain/main.rs"


class Answer(NamedTuple):
    """The result for one file: 0, the report's length and the report; or the code and place of a refusal."""

    code: int
    at: int
    report: bytes


#: The results for the 256 values of one place; None for the value that the dump has there.
Answers = Tuple[Optional[Answer], ...]


class Row(NamedTuple):
    """A range of values of one place with the same code and place of the result, and the mix of their reports."""

    first: int
    last: int
    code: int
    at: int
    mix: int


class Failed(Exception):
    """A run of the plain marker that ended without a report and without a refusal."""


def mixed(mix: int, report: bytes) -> int:
    """Returns the number `mix` with the bytes of a report mixed in."""
    for byte in report:
        mix = (mix * 31 + byte) % (1 << 32)
    return mix


def answer(plain: str, path: str) -> Answer:
    """Returns the result of the plain marker for the file at `path`. Raises `Failed`."""
    ran = subprocess.run([plain, path], capture_output=True, timeout=60)
    if ran.returncode == 0 and ran.stdout:
        return Answer(0, len(ran.stdout), ran.stdout)
    refusal = re.search(rb"^plain: refused (\d+) \w+ at (\d+)$", ran.stderr, re.M)
    if ran.returncode != 1 or not refusal or ran.stdout:
        raise Failed(f"{plain}: status {ran.returncode}: {ran.stderr.decode(errors='replace')}")
    return Answer(int(refusal[1]), int(refusal[2]), b"")


def answers_at(task: tuple[str, bytes, int]) -> Answers:
    """Returns the result for each value at the place of `task`, which is a plain marker, a dump and a place."""
    plain, dump, place = task
    answers: list[Answer | None] = []
    with tempfile.NamedTemporaryFile(dir="/dev/shm" if os.path.isdir("/dev/shm") else None) as file:
        for value in range(256):
            if value == dump[place]:
                answers.append(None)
                continue
            file.seek(0)
            file.write(dump[:place] + bytes([value]) + dump[place + 1 :])
            file.flush()
            answers.append(answer(plain, file.name))
    return tuple(answers)


def ranges(answers: Answers) -> list[Row]:
    """Returns the ranges of values with the same code and place, each with the mix of its reports."""
    rows: list[Row] = []
    for value, told in enumerate(answers):
        if told is None:
            if rows:
                rows[-1] = rows[-1]._replace(last=value)
        elif rows and (rows[-1].code, rows[-1].at) == (told.code, told.at):
            rows[-1] = rows[-1]._replace(last=value, mix=mixed(rows[-1].mix, told.report))
        else:
            rows.append(Row(value, value, told.code, told.at, mixed(0, told.report)))
    return rows


def main() -> int:
    parser = argparse.ArgumentParser(description=__doc__, formatter_class=argparse.RawDescriptionHelpFormatter)
    parser.add_argument("--jobs", type=int, default=2, metavar="N", help="processes (2)")
    parser.add_argument("plain", metavar="PLAIN", help="the plain marker of bench/plain, built")
    help_of_dump = "a small dump (that of two objects, crates/heapmark/data/two_objects.hprof)"
    parser.add_argument("dump", metavar="DUMP", nargs="?", default=DUMP, help=help_of_dump)
    words = parser.parse_args()
    plain = os.path.abspath(words.plain)
    if not os.access(plain, os.X_OK) or not os.path.isfile(words.dump):
        parser.error("PLAIN is a program, and DUMP a file")
    with open(words.dump, "rb") as file:
        dump = file.read()
    with multiprocessing.Pool(words.jobs) as pool:
        try:
            all_answers = pool.map(answers_at, [(plain, dump, place) for place in range(len(dump))], chunksize=1)
        except Failed as fault:
            sys.exit(f"every_byte: {fault}")
    rows = [(place, row) for place, answers in enumerate(all_answers) for row in ranges(answers)]
    sums: dict[int, list[int]] = collections.defaultdict(lambda: [0, 0])
    for told in (told for answers in all_answers for told in answers if told):
        sums[told.code][0] += 1
        sums[told.code][1] += told.at
    print("//! The answers for each byte of the dump of two objects changed to each other value: what the plain marker")
    print("//! of bench/plain answers, which is no part of heapmark. bench/every_byte.py makes this file.")
    print("\nuse super::Answer;")
    print(
        "\n/// The columns: place, first and last value, code of a refusal or 0, its place or the length of a "
        "report, mix."
    )
    print(f"pub static ANSWERS: [Answer; {len(rows)}] = [")
    for place, row in rows:
        print(f"    ({place}, {row.first}, {row.last}, {row.code}, {row.at}, {row.mix}),")
    print("];")
    for code in sorted(sums):
        print(f"{code}: {sums[code][0]} files, sum {sums[code][1]}", file=sys.stderr)
    return 0


if __name__ == "__main__":
    sys.exit(main())
