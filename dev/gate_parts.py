"""The parts of the gate, and the processor seconds of each: for dev/gate_costs.

A part is the check of a crate, the check of its tests, or a must-fail edit. `rt` starts processes in many threads;
`Meter` notes in each thread the part that the thread is at, and adds the time of each process to the part for which it
runs.
"""

from __future__ import annotations

import contextlib
import os
import pathlib
import subprocess
import threading
import time
from collections import defaultdict
from collections.abc import Iterator
from typing import Any, NamedTuple

#: What is done with a crate.
CHECK, TESTS, EDITS, ELSE = "check", "tests", "edits", "else"


class Part(NamedTuple):
    """A part of the gate: a crate, what is done with it, and the edit if it is one. The copy of the crate with which
    the edits begin is a part of EDITS without an edit."""

    crate: str
    what: str
    edit: str = ""


class Costs:
    """The processor seconds of each part."""

    def __init__(self) -> None:
        self.seconds: dict[Part, float] = defaultdict(float)
        self._adding = threading.Lock()

    def add(self, part: Part, seconds: float) -> None:
        """Adds `seconds` to those of `part`."""
        with self._adding:
            self.seconds[part] += seconds

    def of(self, crate: str, what: str) -> float:
        """Returns the seconds of all parts of `crate` that do `what`."""
        return sum(seconds for part, seconds in self.seconds.items() if part[:2] == (crate, what))

    def crates(self) -> list[str]:
        """Returns the crates, the dearest first."""
        whole: dict[str, float] = defaultdict(float)
        for part, seconds in self.seconds.items():
            whole[part.crate] += seconds
        return sorted(filter(None, whole), key=lambda it: (-whole[it], it))

    def edits(self) -> list[Part]:
        """Returns the edits, the dearest first."""
        return sorted(filter(lambda it: it.edit, self.seconds), key=lambda it: (-self.seconds[it], it))

    def total(self) -> float:
        """Returns the seconds of all parts."""
        return sum(self.seconds.values())


def seconds_of(process: int) -> float:
    """Returns the processor seconds of a process that has ended and is not reaped, and of those that it waited for."""
    text = pathlib.Path(f"/proc/{process}/stat").read_text(encoding="utf-8", errors="replace")
    ticks = text.rpartition(")")[2].split()[11:15]  # user and system, its own and those of its children
    return sum(map(int, ticks)) / os.sysconf("SC_CLK_TCK")


class Meter:
    """Measures the processes that Python starts while `measuring` lasts."""

    def __init__(self) -> None:
        self.costs = Costs()
        self._thread = threading.local()

    def part(self) -> Part:
        """Returns the part that this thread is at."""
        part: Part = getattr(self._thread, "part", Part("", ELSE))
        return part

    @contextlib.contextmanager
    def at(self, part: Part) -> Iterator[None]:
        """Adds the time of the processes that this thread starts meanwhile to `part`."""
        before = self.part()
        self._thread.part = part
        try:
            yield
        finally:
            self._thread.part = before

    def part_of(self, words: Any) -> Part:
        """Returns the part for which a process with these words runs: that of this thread, or the one they name."""
        if self.part().crate or not isinstance(words, list) or "--crate-name" not in words:
            return self.part()
        return Part(words[words.index("--crate-name") + 1], TESTS if "--test" in words else CHECK)

    def ended(self, process: subprocess.Popen[Any], flags: int) -> bool:
        """Waits for the end of `process`, unless `flags` has `WNOHANG`. If it has ended, adds its time and returns
        True. Does not reap it, so that its time can be read."""
        if process.returncode is not None:
            return True
        try:
            if not os.waitid(os.P_PID, process.pid, os.WEXITED | os.WNOWAIT | flags):
                return False
            self.costs.add(self.part_of(process.args), seconds_of(process.pid))
        except (ChildProcessError, FileNotFoundError):  # somebody else has reaped it
            pass
        return True

    @contextlib.contextmanager
    def measuring(self) -> Iterator[None]:
        """Measures all processes that are started meanwhile, in all threads.

        `rt` has no place for what is to be called at the end of a process. So the class with which it starts processes,
        `subprocess.Popen`, is replaced by one that measures them.
        """
        meter, usual = self, subprocess.Popen

        class Measured(subprocess.Popen):  # type: ignore[type-arg]
            """A process whose time is added up at its end."""

            def poll(self) -> int | None:
                meter.ended(self, os.WNOHANG)
                return super().poll()

            def wait(self, timeout: float | None = None) -> int:
                if timeout is None:
                    meter.ended(self, 0)
                    return super().wait()
                ends = time.monotonic() + timeout
                while not meter.ended(self, os.WNOHANG):
                    if time.monotonic() > ends:
                        raise subprocess.TimeoutExpired(self.args, timeout)
                    time.sleep(0.01)
                return super().wait()

        setattr(subprocess, "Popen", Measured)
        try:
            yield
        finally:
            setattr(subprocess, "Popen", usual)


def minutes_with(processors: int, uses: dict[str, list[str]], costs: Costs) -> float:
    """Returns the minutes that the gate takes with `processors`, if each part takes what it took. `uses` has the crates
    that each crate uses, lowest first. Of the parts that can start, proofs go before edits. Among proofs, and among
    edits, the one with the longest chain of parts after it goes first. An edit waits for its crate, and for the copy
    with which the edits begin."""
    waits: dict[Part, list[Part]] = {}
    for crate, below in uses.items():
        own = [Part(crate, what) for what in (CHECK, TESTS, EDITS)]
        waits.update((part, [Part(it, CHECK) for it in below]) for part in own)
        waits.update((edit, own) for edit in costs.edits() if edit.crate == crate)
    seconds = {part: costs.seconds.get(part, 0.0) for part in waits}
    chain: dict[Part, float] = {}
    for part in reversed(waits):
        chain[part] = seconds[part] + max((chain[it] for it in chain if part in waits[it]), default=0)
    left = sorted(waits, key=lambda it: (it.what == EDITS, -chain[it]))
    running: dict[Part, float] = {}
    done: set[Part] = set()
    now = 0.0
    while left or running:
        for part in [it for it in left if done.issuperset(waits[it])][: processors - len(running)]:
            left.remove(part)
            running[part] = now + seconds[part]
        now = min(running.values())
        done |= {part for part, end in running.items() if end <= now}
        running = {part: end for part, end in running.items() if end > now}
    return now / 60
