"""Tests that each tool ends in a line and with its status, by no signal and without a traceback, whatever becomes of a
dump while it is read, and whatever the system lacks."""

import gzip
import itertools
import os
import pathlib
import re
import resource
import shutil
import signal
import subprocess
import sys
import unittest
from typing import Callable, Dict, Iterator, List, NamedTuple, Optional, Sequence, Set

from heap_tools.heapmark import Heapmark
from tests.support.dump_writer import BYTE
from tests.support.services import cache
from tests.support.tool_test import HEAPMARK, RETAINED, TOOLS, Ended, ToolTest, report

#: Command lines of all tools, the last dump of which is `friday`.
COMMANDS = (
    ["sizes", "friday"],
    ["leaks", "friday"],
    ["leaks", "monday", "friday"],
    ["holders", "friday"],
    ["held", "friday", "static shop/Service.CACHE"],
    ["grown", "monday", "friday"],
)
#: What becomes of the dump: it is emptied, cut or overwritten.
CHANGES = (": > friday", "truncate -s 3000 friday", "cat other > friday")
#: What is said of that.
CHANGED = "friday: it changed while it was read"
#: A stand-in for a program that changes the dump before it is read, or after it was.
CHANGING = """case "$*" in
*friday*) BEFORE; PROGRAM "$@"; status=$?; AFTER; exit $status ;;
esac
exec PROGRAM "$@"
"""
#: The tools that run retained.
ASKING = ("leaks", "holders", "held")
#: Refuses what the tests lack: put before the modules of a tool are read.
LACKING = {
    "processes of its own": "os.fork = lacking(BlockingIOError(errno.EAGAIN, os.strerror(errno.EAGAIN)))",
    "processes": "subprocess.Popen = lacking(BlockingIOError(errno.EAGAIN, os.strerror(errno.EAGAIN)))",
}
#: A tool without that.
WITHOUT = """import errno, os, runpy, subprocess, sys
def lacking(fault):
    def fails(*_, **__):
        raise fault
    return fails
os.sched_getaffinity = lambda _: {0, 1, 2, 3}
LACKS
del sys.argv[0]
runpy.run_path(sys.argv[0], run_name="__main__")
"""


class Lack(NamedTuple):
    """A limit of the system's, and some values of it, in rising order."""

    limit: int
    values: Sequence[int]


#: The fewest open files with which a tool gets something done, and many more.
FILES = Lack(resource.RLIMIT_NOFILE, range(5, 24, 6))
#: The tenths of the memory that it takes which a program gets, and those with which it has enough.
TENTHS, ENOUGH = range(1, 10), 15
#: The program that runs the tools, as the system names it.
PYTHON = os.path.realpath(sys.executable)
#: Stand-ins for a program with as much memory as it wants, though the tool is limited, and with a limit of its own.
AS_MUCH = 'ulimit -S -v unlimited\nexec HEAPMARK "$@"'
LIMITED = 'ulimit -v KILOBYTES\nexec HEAPMARK "$@"'


class StressTest(ToolTest):
    """Each tool"""

    def setUp(self) -> None:
        super().setUp()
        for name, count, minutes in (("monday", 20, 0), ("friday", 80, 12), ("other", 50, 24)):
            cache(count, minutes).write(name)
        shutil.copy("friday", "whole")
        self.right: Dict[str, Ended] = {}

    def of_tool(self, words: Sequence[str], **programs: str) -> Ended:
        """Runs a tool, with stand-ins for `HEAPMARK` or `RETAINED`."""
        return self.ran(*words[1:], tool=words[0], variables=programs)

    def rightly(self, words: Sequence[str]) -> str:
        """Returns what a tool prints if nothing happens."""
        key = " ".join(words)
        if key not in self.right:
            self.right[key] = self.of_tool(words)
            self.assertEqual(self.right[key].status, 0, self.right[key].said)
        return self.right[key].out

    def require_line(self, ended: Ended, words: Sequence[str], statuses: Sequence[int], said: str = "") -> None:
        """Tests that a tool printed nothing, and ended with one of some statuses and a line, which has what is
        `said`."""
        self.assertEqual((ended.out, ended.status in statuses), ("", True), ended)
        self.assertRegex(ended.said, rf"\A{words[0]}: [^\n]*\n\Z")
        self.assertIn(said, ended.said)

    def test_changed(self) -> None:
        """A dump that is emptied, cut or overwritten before heapmark reads it, or before the tool has, is said to have
        changed."""
        commands = [*COMMANDS, ["grown", "--dump-bytes", "monday", "friday"]]
        for words, change, moment in itertools.product(commands, CHANGES, ("BEFORE", "AFTER")):
            with self.subTest(words=words, change=change, moment=moment):
                shutil.copy2("whole", "friday")
                heapmark = self.changing("HEAPMARK", moment, change)
                self.require_line(self.of_tool(words, HEAPMARK=heapmark), words, [1], CHANGED)

    def test_changed_later(self) -> None:
        """So is one that changes before retained reads it, or while it does; it does not matter to other tools."""
        for words, change, moment in itertools.product(COMMANDS, CHANGES, ("BEFORE", "AFTER")):
            with self.subTest(words=words, change=change, moment=moment):
                shutil.copy2("whole", "friday")
                whole = self.rightly(words)
                ended = self.of_tool(words, RETAINED=self.changing("RETAINED", moment, change))
                if words[0] in ASKING:
                    self.require_line(ended, words, [1], CHANGED)
                else:
                    self.assertEqual((ended.status, ended.out), (0, whole), ended.said)

    def test_gone(self) -> None:
        """A dump that is gone before the tool has read it takes a line, too."""
        for words in COMMANDS:
            shutil.copy2("whole", "friday")
            heapmark = self.changing("HEAPMARK", "AFTER", "rm friday")
            self.require_line(self.of_tool(words, HEAPMARK=heapmark), words, [1], CHANGED)

    def changing(self, program: str, moment: str, change: str) -> str:
        """Returns a stand-in for a program that changes the dump at a moment."""
        text = CHANGING.replace(moment, change).replace("PROGRAM", program)
        return self.program(re.sub("BEFORE|AFTER", ":", text))

    def with_less(self, words: Sequence[str], lack: Lack, heapmark: str = HEAPMARK) -> Iterator[Ended]:
        """Yields how a tool ends with less and less, and tests that it ends rightly, or with a line."""
        whole = self.rightly(words)
        for value in reversed(lack.values):
            with self.subTest(words=words, value=value):
                ended = limited(words, lack.limit, value, heapmark)
                self.require_right_or_line(ended, words, whole)
                yield ended

    def require_right_or_line(self, ended: Ended, words: Sequence[str], whole: str) -> None:
        """Tests that a tool printed `whole`, or ended with a line."""
        if (ended.status, ended.out) != (0, whole):
            self.require_line(ended, words, [1, 5])

    def test_files(self) -> None:
        """With few open files."""
        said = {ended.said for words in COMMANDS for ended in self.with_less(words, FILES) if ended.status}
        self.assertTrue(
            all(each.endswith(" cannot be run: Too many open files: see ulimit -n\n") for each in said), said
        )
        self.assertTrue(said)

    def with_large_arrays(self) -> None:
        """Writes dumps of 10 MB."""
        for name, count, minutes in (("monday", 20, 0), ("friday", 80, 12)):
            dump = cache(count, minutes)
            for number in range(10):
                dump.values(100_000 + number, BYTE, bytes(1_000_000))
            dump.root(*range(100_000, 100_010))
            dump.write(name)

    def test_memory(self) -> None:
        """With each tenth of the memory that it takes besides what Python does, for a dump of 10 MB: the tool or its
        processes have too little, heapmark has enough."""
        self.with_large_arrays()
        heapmark, least = self.program(AS_MUCH), peak_memory(["-c", "pass"])
        for words in COMMANDS:
            more = peak_memory([str(TOOLS / words[0]), *words[1:]]) - least
            lack = Lack(resource.RLIMIT_AS, [least + more * tenth // 10 for tenth in (*TENTHS, ENOUGH)])
            ends = list(self.with_less(words, lack, heapmark))
            self.assertEqual(ends[0].status, 0, ends[0].said)
            said = {ended.said.splitlines()[-1] for ended in ends if ended.status}
            self.assertEqual({each for each in said if not each.endswith((": out of memory", ", and memory"))}, set())
            self.assertIn(f"{words[0]}: out of memory", said)

    def test_memory_of_heapmark(self) -> None:
        """With each tenth of the memory that heapmark takes for a dump of 10 MB: it has too little, the tool enough."""
        self.with_large_arrays()
        most = memory_of_heapmark("friday")
        for words, tenth in itertools.product(COMMANDS, (*TENTHS, ENOUGH)):
            with self.subTest(words=words, tenth=tenth):
                kilobytes = most * tenth // 10 // 1024
                ended = self.of_tool(words, HEAPMARK=self.program(LIMITED.replace("KILOBYTES", str(kilobytes))))
                self.require_right_or_line(ended, words, self.rightly(words))
                self.assertEqual(ended.status == 0 or tenth < ENOUGH, True, ended.said)

    def test_memory_of_retained(self) -> None:
        """With some tenths of that memory for retained."""
        self.with_large_arrays()
        most = memory_of_heapmark("friday")
        for words, tenth in itertools.product((each for each in COMMANDS if each[0] in ASKING), TENTHS[::4]):
            with self.subTest(words=words, tenth=tenth):
                kilobytes = most * tenth // 10 // 1024
                text = LIMITED.replace("HEAPMARK", "RETAINED").replace("KILOBYTES", str(kilobytes))
                ended = self.of_tool(words, RETAINED=self.program(text))
                self.require_right_or_line(ended, words, self.rightly(words))

    def lacking(self, what: str, words: Sequence[str]) -> Ended:
        """Runs a tool to which the system gives none of something."""
        return ended_of(["-c", WITHOUT.replace("LACKS", LACKING[what]), str(TOOLS / words[0]), *words[1:]])

    def test_processes(self) -> None:
        """Without further processes, a tool does all by itself; without heapmark it cannot do anything."""
        for words in COMMANDS:
            ended = self.lacking("processes of its own", words)
            self.assertEqual((ended.status, ended.out), (0, self.rightly(words)), ended.said)
            ended = self.lacking("processes", words)
            self.require_line(ended, words, [5], " cannot be run: Resource temporarily unavailable: see ulimit -u\n")

    def test_no_proc(self) -> None:
        """Without /proc, retained cannot read what it gets, and heapmark no compressed dump."""
        apart = ["unshare", "--mount", "sh", "-c", 'mount -t tmpfs none /proc && exec "$@"', "sh"]
        if not shutil.which("unshare") or subprocess.run([*apart, "true"], stderr=subprocess.DEVNULL).returncode:
            self.skipTest("/proc cannot be hidden")
        for words in COMMANDS:
            ended = ended_of([str(TOOLS / words[0]), *words[1:]], apart)
            if ended.status:
                self.require_line(ended, words, [1, 5], ": it reads by /dev/stdin, which needs /proc\n")
            else:
                self.assertEqual(ended.out, self.rightly(words))
        pathlib.Path("packed").write_bytes(gzip.compress(pathlib.Path("friday").read_bytes()))
        ended = ended_of([str(TOOLS / "sizes"), "packed"], apart)
        self.require_line(ended, ["sizes"], [1], ", which needs /proc (refused 19 ")

    def test_endless(self) -> None:
        """A program that prints rows, or something else, without end in place of a report is ended, by its first run or
        by a later one."""
        rows = f"cat << 'END'\n{report((1, 8, 'A'))}END\n"
        for words in COMMANDS:
            for prints in (
                "exec yes '  2  8  A'",
                f"{rows}exec yes '  2  8  A'",
                "exec yes no",
                "exec tr '\\0' 1 < /dev/zero",
            ):
                ended = self.of_tool(words, HEAPMARK=self.program(prints))
                self.require_line(ended, words, [5], "failed: no report: is it heapmark?\n")
            for prints in ("exec yes '  2  8   4  -  A'", "exec yes no") if words[0] in ASKING else ():
                ended = self.of_tool(words, RETAINED=self.program(prints))
                self.require_line(ended, words, [5], "failed: no table: is it retained?\n")

    def test_signals(self) -> None:
        """A signal that comes while the modules of a tool are read ends it as one does later; one that is ignored does
        not."""
        for tool in sorted({words[0] for words in COMMANDS}):
            for name in ("SIGINT", "SIGTERM", "SIGHUP"):
                sends = f"os.kill(os.getpid(), signal.{name})\n    from heap_tools"
                body = (TOOLS / tool).read_text(encoding="utf-8").replace("from heap_tools", sends)
                command = ["-c", f"__file__ = {str(TOOLS / tool)!r}\n{body}", "--version"]
                handlers = (signal.SIG_DFL, 130, f"{tool}: interrupted\n"), (signal.SIG_IGN, 0, "")
                for handler, status, said in handlers:
                    ended = ended_of(command, limit=lambda: signal.signal(signal.Signals[name], handler))
                    self.assertEqual((ended.status, ended.said), (status, said), (tool, name))


def limited(words: Sequence[str], limit: int, value: int, heapmark: str) -> Ended:
    """Runs a tool with a limit, which it may lift."""
    tool = [str(TOOLS / words[0]), *words[1:]]
    most = resource.getrlimit(limit)[1]
    return ended_of(tool, limit=lambda: resource.setrlimit(limit, (value, most)), heapmark=heapmark)


def memory_of_heapmark(dump: str) -> int:
    """Returns how many bytes of memory heapmark needs for a dump, up to twice as many."""
    for power in itertools.count(20):
        words = ["sh", "-c", f'ulimit -v {1 << power - 10} && exec "$@"', "sh", HEAPMARK, dump]
        if not subprocess.run(words, env=Heapmark().environment, capture_output=True, check=False).returncode:
            return 1 << power
    raise AssertionError


def peak_memory(words: Sequence[str]) -> int:
    """Returns how many bytes of memory Python asks the system for when it runs these words, or the one of its processes
    that asks for most."""
    most = 0
    known: Set[int] = set()
    none = subprocess.DEVNULL
    with subprocess.Popen(
        [sys.executable, *words], stdin=none, stdout=none, stderr=none, env=environment(HEAPMARK)
    ) as it:
        while it.poll() is None:
            known = {it.pid, *(child for each in known for child in children_of(each))}
            most = max(most, *map(peak_of, known))
    return most


def children_of(process: int) -> List[int]:
    """Returns the processes that a process has started and that have not ended."""
    try:
        tasks = pathlib.Path(f"/proc/{process}/task").glob("*/children")
        return [int(number) for each in tasks for number in each.read_text().split()]
    except OSError:
        return []


def peak_of(process: int) -> int:
    """Returns the bytes of memory that a process of Python had at its peak, 0 if it has ended."""
    try:
        if os.readlink(f"/proc/{process}/exe") != PYTHON:
            return 0
        found = re.search(r"^VmPeak:\s+(\d+) kB$", pathlib.Path(f"/proc/{process}/status").read_text(), re.M)
    except OSError:
        return 0
    return int(found[1]) << 10 if found else 0


def environment(heapmark: str) -> Dict[str, str]:
    """Returns the variables of a tool that runs the program `heapmark`."""
    return {**os.environ, "HEAPMARK": heapmark}


def ended_of(
    words: Sequence[str],
    before: Sequence[str] = (),
    limit: Optional[Callable[[], object]] = None,
    heapmark: str = HEAPMARK,
) -> Ended:
    """Runs Python with these words, after others, and with a limit. Returns how it ended."""
    ran = subprocess.run(
        [*before, sys.executable, *words],
        env={**os.environ, "HEAPMARK": heapmark, "RETAINED": RETAINED},
        stdin=subprocess.DEVNULL,
        stdout=subprocess.PIPE,
        stderr=subprocess.PIPE,
        preexec_fn=limit,
        timeout=100,
        check=False,
    )
    return Ended(ran.returncode, ran.stdout.decode(), ran.stderr.decode())


class RefusalTest(ToolTest):
    """What is said of a refusal that is not the dump's fault."""

    tool = "sizes"

    def test_reasons(self) -> None:
        """It is heapmark that lacks memory or threads, and no option is named that tools lack. Of a dump that is too
        large it is said what serves larger heaps."""
        cache(5).write("dump")
        hint = "heapmark: dump: takes its own size in memory and more for each object: free some memory, or try "
        larger = "; grown compares two outputs of `jcmd PID GC.class_histogram`, which serve heaps of any size"
        cases: List[Sequence[str]] = [
            (
                f"heapmark: refused 15 OutOfMemory\n{hint}--workers 1, which takes the least",
                "takes its own size in memory and more for each object: free some memory (refused 15 OutOfMemory)",
            ),
            (
                "heapmark: refused 15 OutOfMemory",
                "heapmark is out of memory: free some, or see ulimit -v (refused 15 OutOfMemory)",
            ),
            (
                "heapmark: refused 18 WorkerRefused\nheapmark: --workers 4: the system starts no more threads",
                "the system starts no thread for heapmark: see ulimit -u and ulimit -v (refused 18 WorkerRefused)",
            ),
            ("heapmark: refused 19 ReadFault", "heapmark cannot read it (refused 19 ReadFault)"),
            ("heapmark: refused 5 BadSubTag at 49", "no dump that heapmark accepts (refused 5 BadSubTag at 49)"),
            (
                "heapmark: refused 14 TooLarge at 1073741824",
                f"no dump that heapmark accepts{larger} (refused 14 TooLarge at 1073741824)",
            ),
            (
                "heapmark: refused 14 TooLarge at 9\nheapmark: dump: more than 16,777,216 objects: dump a smaller heap",
                f"more than 16,777,216 objects: dump a smaller heap{larger} (refused 14 TooLarge at 9)",
            ),
        ]
        for lines, said in cases:
            program = self.program(f"cat >&2 << 'END'\n{lines}\nEND\nexit 1")
            self.expect(["dump"], said=f"sizes: dump: {said}", status=1, heapmark=program)


if __name__ == "__main__":
    unittest.main()
