#!/usr/bin/env python3
"""Treats heapmark roughly: a real dump cut or changed at random, many workers, little memory, streams that fail.

The groups, all of them if none is given; N is 1000 if it is not given:

    cut       DUMP without its end, cut at N random places
    changed   DUMP with one byte changed, N times
    many      N runs with 64 workers
    memory    a limit on the address space that grows by a megabyte from run to run, until the report is whole
    threads   a limit on the number of threads that grows, with 64 workers
    streams   an output that is closed, or full, and an interrupt at N / 20 moments

In `cut` and `changed` heapmark has to print what the plain marker of bench/plain prints, to the byte: the same report,
or the same refusal at the same offset. A run that ends otherwise, as by a signal, is wrong even if both do so. In
`many` every run has to give the plain marker's report. In `memory` and `threads` a run has to end with the whole
report, or with refusal 15 or 18 and nothing written. In `memory`, at limits up to 3, it may also end with status 127 or
by SIGSEGV, with nothing written: then it was not loaded. In `streams` a run has to end with status 0 and the whole
report; or, after a beginning of the report, with refusal 20, by the interrupt or by SIGPIPE.

Prints a line for each group with how its runs ended, and each run that was wrong; exit status 1 if any was. heapmark is
the binary of crates/heapmark/out, or what the variable HEAPMARK names. `threads` needs root, and runs as nobody.
"""

from __future__ import annotations

import argparse
import collections
import functools
import os
import random
import re
import resource
import shutil
import signal
import subprocess
import sys
import tempfile
import time
from collections.abc import Callable, Iterable
from typing import Counter, NamedTuple

TOP = os.path.dirname(os.path.dirname(os.path.abspath(__file__)))
HEAPMARK = os.environ.get("HEAPMARK", f"{TOP}/crates/heapmark/out/heapmark")
MEBIBYTE = 1 << 20
NOBODY = 65534
#: Seconds after which a run counts as one that hangs.
PATIENCE = 120
#: With this many megabytes or fewer, the system may fail to load the program and the C library.
LOADER = 3


class Answer(NamedTuple):
    """How a run of a marker ended: its status, or None if it hangs; its report; and its refusal without the program's
    name."""

    status: int | None
    report: bytes
    refusal: str

    def is_an_end(self) -> bool:
        """Tests whether it is a report or a refusal."""
        is_report = self.status == 0 and bool(self.report) and not self.refusal
        return is_report or self.status == 1 and not self.report and bool(self.refusal)


def answer(program: str, words: list[str], before: Callable[[], None] | None = None) -> Answer:
    """Runs a program, which calls `before` first. Returns how it ended."""
    try:
        ran = subprocess.run([program, *words], capture_output=True, timeout=PATIENCE, preexec_fn=before)
    except subprocess.TimeoutExpired:
        return Answer(None, b"", f"no end within {PATIENCE} s")
    refusal = re.search(r"^\w+: (refused .*)$", ran.stderr.decode(errors="replace"), re.M)
    return Answer(ran.returncode, ran.stdout, refusal[1] if refusal else "")


def heed_interrupts() -> None:
    """Makes heapmark heed interrupts. It would ignore them if a shell had started this program in the background."""
    signal.signal(signal.SIGINT, signal.SIG_DFL)


class Rough:
    """One dump, and what is known of it."""

    def __init__(self, dump: str, count: int, chance: random.Random, room: str) -> None:
        self.dump, self.count, self.chance, self.room = dump, count, chance, room
        self.size = os.path.getsize(dump)
        self.plain = f"{room}/plain"
        subprocess.run(["rustc", "--edition", "2024", "-O", "-o", self.plain, f"{TOP}/bench/plain/main.rs"], check=True)
        self.whole = answer(HEAPMARK, [dump])
        self.failed = False
        if self.whole.status != 0 or not self.whole.is_an_end():
            sys.exit(f"rough: {dump}: no report: status {self.whole.status} {self.whole.refusal}")
        if self.whole != answer(self.plain, [dump]):
            sys.exit(f"rough: {dump}: the plain marker has another report")

    def wrong(self, what: str) -> None:
        """Prints what was wrong in a run, and notes it."""
        print(f"WRONG: {what}")
        self.failed = True

    def tell(self, group: str, ends: Counter[str]) -> None:
        """Prints how the runs of a group ended."""
        print(f"{group}: " + ", ".join(f"{number} {end}" for end, number in sorted(ends.items())))

    def compare(self, path: str, what: str, ends: Counter[str]) -> None:
        """Runs both markers on this file: status, report and refusal have to be equal."""
        ours, plains = answer(HEAPMARK, [path]), answer(self.plain, [path])
        if ours != plains or not ours.is_an_end():
            self.wrong(f"{what}: {ours.status} {ours.refusal!r}, plain {plains.status} {plains.refusal!r}")
        ends["reports" if ours.status == 0 else " ".join(ours.refusal.split()[:3])] += 1

    def copied(self) -> str:
        """Copies the dump, and returns the path of the copy."""
        path = f"{self.room}/dump"
        shutil.copyfile(self.dump, path)
        return path

    def cut(self) -> None:
        """The dump without its end."""
        path = self.copied()
        ends: Counter[str] = collections.Counter()
        places = (self.chance.randrange(self.size) for _ in range(self.count))
        for place in sorted(places, reverse=True):
            os.truncate(path, place)
            self.compare(path, f"cut to {place} bytes", ends)
        self.tell("cut", ends)

    def changed(self) -> None:
        """The dump with a byte changed."""
        path = self.copied()
        ends: Counter[str] = collections.Counter()
        with open(path, "r+b", buffering=0) as file:
            for _ in range(self.count):
                place = self.chance.randrange(self.size)
                file.seek(place)
                old = file.read(1)
                new = bytes([(old[0] + self.chance.randrange(1, 256)) % 256])
                file.seek(place)
                file.write(new)
                self.compare(path, f"byte {place} changed from {old.hex()} to {new.hex()}", ends)
                file.seek(place)
                file.write(old)
        self.tell("changed", ends)

    def many(self) -> None:
        """Runs with 64 workers."""
        ends: Counter[str] = collections.Counter()
        for run in range(self.count):
            ours = answer(HEAPMARK, [self.dump, "--workers", "64"])
            if ours != self.whole:
                self.wrong(f"run {run} with 64 workers: {ours.status} {ours.refusal!r}")
            ends["reports"] += ours == self.whole
        self.tell("many", ends)

    def starved(
        self, group: str, limits: Iterable[int], words: list[str], limit: Callable[[int], None], loader: int = 0
    ) -> None:
        """Runs heapmark under growing limits, up to the first one at which it writes the whole report. Up to the limit
        `loader` the system may fail to load heapmark."""
        path = self.copied()
        ends: Counter[str] = collections.Counter()
        for number in limits:
            ours = answer(HEAPMARK, [path, *words], functools.partial(limit, number))
            if ours == self.whole:
                ends[f"report, at {number}"] += 1
                break
            if ours.status == 1 and not ours.report and re.match(r"refused 1[58] ", ours.refusal):
                ends[ours.refusal] += 1
            elif ours.status in (127, -signal.SIGSEGV) and not ours.report and number <= loader:
                ends["not loaded"] += 1
            else:
                self.wrong(f"{group} at {number}: {ours.status} {ours.refusal!r}, {len(ours.report)} bytes written")
        else:
            self.wrong(f"{group}: no report at the largest limit")
        self.tell(group, ends)

    def memory(self) -> None:
        """A limit on the address space that grows."""

        def limit(mebibytes: int) -> None:
            resource.setrlimit(resource.RLIMIT_AS, (mebibytes * MEBIBYTE,) * 2)

        self.starved("memory", range(1, 64 + 40 * self.size // MEBIBYTE), ["--workers", "2"], limit, LOADER)

    def threads(self) -> None:
        """A limit on the number of threads that grows."""

        def limit(number: int) -> None:
            resource.setrlimit(resource.RLIMIT_NPROC, (number,) * 2)
            os.setgid(NOBODY)
            os.setuid(NOBODY)

        if os.getuid() != 0:
            print("threads: left out, it wants root")
            return
        self.starved("threads", range(1, 100), ["--workers", "64"], limit)

    def streams(self) -> None:
        """Outputs that fail, and interrupts."""
        ends: Counter[str] = collections.Counter()
        with open("/dev/full", "wb") as full:
            ran = subprocess.run([HEAPMARK, self.dump], stdout=full, stderr=subprocess.PIPE, timeout=PATIENCE)
        self.judge("a full device", ran.returncode, ran.stderr, b"", ends)
        reader, writer = os.pipe()
        os.close(reader)
        ran = subprocess.run([HEAPMARK, self.dump], stdout=writer, stderr=subprocess.PIPE, timeout=PATIENCE)
        os.close(writer)
        self.judge("a closed pipe", ran.returncode, ran.stderr, b"", ends)
        start = time.monotonic()
        answer(HEAPMARK, [self.dump])
        takes = time.monotonic() - start
        for _ in range(self.count // 20):
            run = subprocess.Popen(
                [HEAPMARK, self.dump], stdout=subprocess.PIPE, stderr=subprocess.PIPE, preexec_fn=heed_interrupts
            )
            time.sleep(self.chance.uniform(0, takes))
            run.send_signal(signal.SIGINT)
            out, told = run.communicate(timeout=PATIENCE)
            self.judge("an interrupt", run.returncode, told, out, ends)
        self.tell("streams", ends)

    def judge(self, what: str, status: int, told: bytes, out: bytes, ends: Counter[str]) -> None:
        """Counts in `ends` how a run of `streams` ended, or notes that its end was wrong."""
        begins = self.whole.report.startswith(out)
        if status == 0 and out == self.whole.report:
            ends["reports"] += 1
        elif status == 1 and told.startswith(b"heapmark: refused 20 WriteFault") and begins:
            ends["refused 20 WriteFault"] += 1
        elif status in (-signal.SIGINT, -signal.SIGPIPE) and begins:
            ends[f"ended by {signal.Signals(-status).name}"] += 1
        else:
            self.wrong(f"{what}: status {status}, {told!r}, {len(out)} bytes written")


#: The groups of runs, by name.
GROUPS: dict[str, Callable[[Rough], None]] = {
    "cut": Rough.cut,
    "changed": Rough.changed,
    "many": Rough.many,
    "memory": Rough.memory,
    "threads": Rough.threads,
    "streams": Rough.streams,
}


def main() -> int:
    parser = argparse.ArgumentParser(description=__doc__, formatter_class=argparse.RawDescriptionHelpFormatter)
    parser.add_argument("--count", type=int, default=1000, metavar="N", help="runs of a group (1000)")
    parser.add_argument("--seed", type=int, default=1, metavar="N", help="what chance begins with (1)")
    parser.add_argument("dump", metavar="DUMP", help="a dump that heapmark accepts")
    parser.add_argument("groups", metavar="GROUP", nargs="*", default=[], help="a group (all)")
    words = parser.parse_args()
    if not GROUPS.keys() >= set(words.groups):
        parser.error(f"the groups are {', '.join(GROUPS)}")
    if not os.path.isfile(words.dump):
        parser.error(f"no such file: {words.dump}")
    with tempfile.TemporaryDirectory() as room:
        os.chmod(room, 0o755)
        rough = Rough(os.path.abspath(words.dump), words.count, random.Random(words.seed), room)
        for group in words.groups or GROUPS:
            GROUPS[group](rough)
    return 1 if rough.failed else 0


if __name__ == "__main__":
    sys.exit(main())
