"""What the tests of the tools share: a folder for each test, runs of a tool, and stand-ins for heapmark."""

import contextlib
import fnmatch
import os
import pathlib
import pty
import resource
import signal
import subprocess
import tempfile
import time
import unittest
from typing import Any, Dict, List, NamedTuple, Optional, Sequence, Tuple

from tests.support.dump_writer import row
from tests.support.waiting import wait_until

TOOLS = pathlib.Path(__file__).resolve().parent.parent.parent
TOP = TOOLS.parent
HEAPMARK = os.path.realpath(os.environ.get("HEAPMARK") or TOP / "crates/heapmark/out/heapmark")
RETAINED = os.path.realpath(os.environ.get("RETAINED") or TOP / "crates/retained/out/retained")
#: The signals that end a tool.
ENDING = (signal.SIGINT, signal.SIGTERM, signal.SIGHUP)


#: The objects, the bytes and the class of a row.
Row = Tuple[int, int, str]


class Ended(NamedTuple):
    """How a run of a tool ended: its status, its output and its messages."""

    status: int
    out: str
    said: str


class ToolTest(unittest.TestCase):
    """A test of the tool `tool`, in an empty folder of its own."""

    tool = ""
    maxDiff = None

    def setUp(self) -> None:
        folder = tempfile.TemporaryDirectory()
        self.addCleanup(folder.cleanup)
        self.addCleanup(os.chdir, os.getcwd())
        os.chdir(folder.name)

    def ran(
        self,
        *words: str,
        heapmark: str = HEAPMARK,
        variables: Optional[Dict[str, str]] = None,
        tool: Optional[str] = None,
        **more: Any,
    ) -> Ended:
        """Runs the tool with these words, and returns how it ended."""
        environment = {**os.environ, "HEAPMARK": heapmark, "RETAINED": RETAINED, **(variables or {})}
        kept: Dict[str, Any] = {
            "stdin": subprocess.DEVNULL,
            "stdout": subprocess.PIPE,
            "stderr": subprocess.PIPE,
            **more,
        }
        command = [str(TOOLS / (tool or self.tool)), *words]
        ended = subprocess.run(command, env=environment, timeout=100, check=False, **kept)
        texts = ((each or b"").decode(errors="backslashreplace") for each in (ended.stdout, ended.stderr))
        return Ended(ended.returncode, *texts)

    def expect(self, words: Sequence[str], out: str = "", said: str = "", status: int = 0, **more: Any) -> None:
        """Compares how the tool ends. `said` is a pattern for the whole of its messages, without the last line end."""
        with self.subTest(words=words):
            ended = self.ran(*words, **more)
            self.assertEqual((ended.status, ended.out), (status, out), ended.said)
            self.assertTrue(fnmatch.fnmatchcase(ended.said.rstrip("\n"), said), f"{ended.said!r} is not {said!r}")
            self.assertNotIn("Traceback", ended.said)

    def program(self, text: str) -> str:
        """Makes a program to run in place of heapmark or retained, and returns its path. It notes each run in the file
        `runs`."""
        path = pathlib.Path("other")
        note = 'echo "${GLIBC_TUNABLES-unset} $*" >> runs'
        path.write_text(f"#!/bin/sh\n{note}\n{text.replace('HEAPMARK', HEAPMARK).replace('RETAINED', RETAINED)}\n")
        path.chmod(0o755)
        with contextlib.suppress(FileNotFoundError):
            os.remove("runs")
        return str(path.resolve())

    def check_help(self, begins: str) -> None:
        """Tests the help, which has at most 80 columns, and the version, which is that of heapmark."""
        ended = self.ran("--help")
        self.assertEqual((ended.status, ended.said, self.ran("-h").out), (0, "", ended.out))
        self.assertIn(f"\n{begins}", ended.out)
        self.assertEqual([line for line in ended.out.split("\n") if len(line) > 80], [])
        printed = subprocess.run([HEAPMARK, "--version"], stdout=subprocess.PIPE, check=False).stdout.decode()
        version = f"{self.tool} {printed.split()[1]}\n"
        for word in ("--version", "-V"):
            self.assertEqual(self.ran(word), (0, version, ""))

    def check_wrong_words(self, *lists: Sequence[str]) -> None:
        """Tests that each of these command lines is wrong, and that one line says so."""
        for words in lists:
            self.expect(words, said=f"{self.tool}: *: {self.tool} --help says more", status=2)

    def check_output(self, words: Sequence[str], out: str) -> None:
        """Tests that the tool says why its output cannot be written, and that it needs no messages."""
        why = f"{self.tool}: the output cannot be written"
        with open("/dev/full", "wb") as full:
            for each in (words, ["--help"], ["--version"]):
                ended = self.ran(*each, stdout=full)
                self.assertEqual((ended.status, ended.said.split("\n")[0]), (4, why), each)
            self.expect(words, out, stderr=full)
        for each in (words, ["--help"]):
            ended = self.ran(*each, stdout=None, preexec_fn=lambda: os.close(1))
            self.assertEqual((ended.status, ended.said.split("\n")[0]), (4, why), each)
        reads, writes = os.pipe()
        os.close(reads)
        ended = self.ran(*words, stdout=writes)
        os.close(writes)
        self.assertEqual(ended.status, 4)
        self.assertNotIn("cannot be written", ended.said)
        self.expect(words, out, stderr=None, preexec_fn=lambda: os.close(2))
        self.check_half(words, out)

    def check_half(self, words: Sequence[str], out: str) -> None:
        """Tests that the tool says so if only the first half of its output has room in a file."""
        half = len(out.encode()) // 2
        with open("half", "wb") as file:
            limit = lambda: resource.setrlimit(resource.RLIMIT_FSIZE, (half, half))
            ended = self.ran(*words, stdout=file, preexec_fn=limit)
        why = f"{self.tool}: the output cannot be written"
        self.assertEqual((ended.status, ended.said.split("\n")[0], os.path.getsize("half")), (4, why, half))

    def check_interrupt(self, *words: str) -> None:
        """Tests that a signal ends the tool and the heapmark that it runs, and that it then prints only that."""
        for number in ENDING:
            environment = {**os.environ, "HEAPMARK": self.program("echo $$ > pid\nexec sleep 50")}
            kept: Dict[str, Any] = {"stdout": subprocess.PIPE, "stderr": subprocess.PIPE, "env": environment}
            kept["preexec_fn"] = heed_signals
            with subprocess.Popen([str(TOOLS / self.tool), *words], **kept) as child:
                pid = when_written("pid")
                time.sleep(0.2)  # until it waits for what heapmark prints
                child.send_signal(number)
                out, said = child.communicate(timeout=10)
            os.remove("pid")
            expected = (130, b"", f"{self.tool}: interrupted\n".encode())
            self.assertEqual((child.returncode, out, said), expected, number.name)
            self.assertFalse(os.path.exists(f"/proc/{pid}"), number.name)

    def on_terminal(self, *words: str, stream: str = "stderr") -> Tuple[Ended, str]:
        """Runs the tool with a terminal as `stream`. Returns how it ended, and what the terminal got."""
        terminal, end = pty.openpty()
        streams: Dict[str, Any] = {stream: end}
        ended = self.ran(*words, **streams)
        os.close(end)
        seen = b""
        with contextlib.suppress(OSError):  # how Linux says that the other end is closed
            while True:
                seen += os.read(terminal, 1 << 16)
        os.close(terminal)
        return ended, seen.decode().replace("\r\n", "\n")


def heed_signals() -> None:
    """Makes a program heed the signals in ENDING, which it would ignore if this test was started in the background or
    by nohup."""
    for number in ENDING:
        signal.signal(number, signal.SIG_DFL)


def when_written(path: str) -> int:
    """Returns the number in the file `path` once a program has written it."""
    numbers: List[int] = []

    def is_written() -> bool:
        with contextlib.suppress(FileNotFoundError, ValueError):
            numbers.append(int(pathlib.Path(path).read_text()))
        return bool(numbers)

    wait_until(is_written, path)
    return numbers[0]


def report(*rows: Row, unreachable: Tuple[int, int] = (0, 0)) -> str:
    """Returns a report with these rows, each of objects, bytes and a class."""
    totals = [(9, 9, "(reachable)"), (*unreachable, "(unreachable)"), (0, 0, "(unresolved)")]
    return "".join(row(*each) for each in [*rows, *totals])


def histogram(*rows: Row) -> str:
    """Returns a histogram of jcmd with these rows, each of objects, bytes, a class and perhaps its module."""
    lines = ["4711:", " num     #instances         #bytes  class name (module)", "-" * 55]
    for number, (objects, size, name) in enumerate(rows, 1):
        lines.append(f"{number:4d}: {objects:13d} {size:14d}  {name}")
    return "\n".join([*lines, f"Total {99:13d} {999:14d}\n"])
