"""Tests how a tool ends, and the lines that it writes on standard error."""

import argparse
import contextlib
import io
import os
import subprocess
import sys
import unittest
from typing import Any, Dict, Tuple
from unittest import mock

from heap_tools import console
from heap_tools.command_line import number
from tests.support.tool_test import TOOLS, heed_signals


class EndTest(unittest.TestCase):
    """A tool that ends early."""

    def ended(self, body: str) -> Tuple[int, str]:
        """Runs a tool whose `main` has this body. Returns its status and its messages."""
        text = f"import errno, os, signal\nfrom heap_tools import command_line\ndef main(words):\n    {body}\n"
        words = [sys.executable, "-c", f"{text}command_line.run('tool', main)"]
        pipes: Dict[str, Any] = {"stdout": subprocess.PIPE, "stderr": subprocess.PIPE, "preexec_fn": heed_signals}
        ended = subprocess.run(words, cwd=TOOLS, check=False, **pipes)
        return ended.returncode, ended.stderr.decode()

    def test_faults(self) -> None:
        """A fault of the system takes one line, with the file if there is one."""
        for body, line in (
            ("open('/no/file')", "tool: /no/file: No such file or directory"),
            ("raise MemoryError", "tool: out of memory"),
            ("bytes(1 << 60)", "tool: out of memory"),
            ("raise OSError(errno.EAGAIN, os.strerror(errno.EAGAIN))", "tool: Resource temporarily unavailable"),
            ("raise OSError('why')", "tool: why"),
        ):
            self.assertEqual(self.ended(body), (1, f"{line}\n"))

    def test_warnings(self) -> None:
        """Warnings of Python are no errors, and are not printed, whatever PYTHONWARNINGS says."""
        with mock.patch.dict(os.environ, PYTHONWARNINGS="error"):
            for body in ("import warnings; warnings.warn('old'); return 3", "open('/dev/null'); return 3"):
                self.assertEqual(self.ended(body), (3, ""))

    def test_signals(self) -> None:
        """Each signal ends the tool with one line, also if more of them come."""
        for name in ("SIGINT", "SIGTERM", "SIGHUP"):
            body = f"os.kill(os.getpid(), signal.{name})"
            self.assertEqual(self.ended(body), (130, "tool: interrupted\n"), name)

    def test_early(self) -> None:
        """An interrupt while the modules of a tool are read takes one line, too, and so does a module that is missing,
        or that Python takes as wrong, which it does if it is short of memory."""
        missing, wrong = "No module named 'mmap'", "expected ':'"
        needed = "a tool needs all of Python 3.7 or later, the folder heap_tools, and memory"
        for tool in ("grown", "held", "holders", "leaks", "sizes"):
            text = (TOOLS / tool).read_text(encoding="utf-8")
            for raised, status, line in (
                ("KeyboardInterrupt", 130, "interrupted"),
                (f'ModuleNotFoundError("{missing}")', 5, f"{missing}: {needed}"),
                (f'SyntaxError("{wrong}", ("x.py", 7, 1, ""))', 5, f"{wrong} (x.py, line 7): {needed}"),
                ("MemoryError", 1, "out of memory"),
            ):
                body = text.replace("from heap_tools", f"raise {raised}\n    from x")
                words = [sys.executable, "-c", f"__file__ = {str(TOOLS / tool)!r}\n{body}"]
                ended = subprocess.run(words, stdout=subprocess.PIPE, stderr=subprocess.PIPE, check=False)
                self.assertEqual((ended.returncode, ended.stderr.decode()), (status, f"{tool}: {line}\n"))


class NumberTest(unittest.TestCase):
    """Numbers of a command line."""

    def test_number(self) -> None:
        """A number has digits only, and is neither too small nor too large."""
        read = number(1, 100)
        self.assertEqual([read(text) for text in ("1", "007", "100")], [1, 7, 100])
        for text in ("0", "101", "-1", "+1", "1.0", " 1", "1_0", "", "\u0661", "9" * 20):
            self.assertRaises(argparse.ArgumentTypeError, read, text)
        self.assertEqual(number()("9" * 19), 10**19 - 1)


class ProgressTest(unittest.TestCase):
    """The line of a terminal that says how far a tool is."""

    def test_line(self) -> None:
        """A line is cut to the width of the terminal, and leaves nothing of the line before."""
        size = os.terminal_size((20, 24))
        with contextlib.redirect_stderr(io.StringIO()) as shown:
            with mock.patch("heap_tools.console.is_terminal", return_value=True):
                progress = console.Progress("leaks")
            with mock.patch("shutil.get_terminal_size", return_value=size):
                for text in ("reading dump 1 of 2", "run 7\n"):
                    progress.show(text)
            progress.clear()
            progress.clear()
        lines = ["leaks: reading dump", r"leaks: run 7\x0a".ljust(19), " " * 16, ""]
        self.assertEqual(shown.getvalue().split("\r"), lines)


class LineTest(unittest.TestCase):
    """What is said in one line."""

    def test_controls(self) -> None:
        """What does not print is spelled as heapmark spells control characters, all else stays."""
        for text, spelled in (
            ("a\nb", r"a\x0ab"),
            ("\x1b[1m", r"\x1b[1m"),
            ("\x85", r"\xc2\x85"),
            ("Größe 订单", "Größe 订单"),
            ('"a\\', '"a\\'),
        ):
            self.assertEqual(console.in_one_line(text), spelled)
            self.assertEqual(console.as_heapmark_spells(text), spelled)
        for text, spelled in (
            ("\u202egnp.\u2066", r"\xe2\x80\xaegnp.\xe2\x81\xa6"),
            ("a\u200b\u2028\ufeff", r"a\xe2\x80\x8b\xe2\x80\xa8\xef\xbb\xbf"),
        ):
            self.assertEqual(console.in_one_line(text), spelled)
            self.assertEqual(console.as_heapmark_spells(text), text)

    def test_long(self) -> None:
        """Of a very long line the beginning and the end are written."""
        for length, wanted in ((20_000, 20_000), (20_001, 20_004), (1 << 20, 20_004)):
            with mock.patch("os.write") as write, mock.patch("sys.stderr", mock.Mock()):
                console.say(f"begin {'x' * (length - 10)} end")
            written = write.call_args[0][1].decode()
            self.assertEqual((len(written), written[:6], written[-5:]), (wanted + 1, "begin ", " end\n"))
            self.assertEqual(" .. " in written, wanted > 20_000)

    def test_surrogates(self) -> None:
        """Bytes of a file's name that are no text stay as they are."""
        reads, writes = os.pipe()
        with open(reads, "rb") as read:
            with open(writes, "w") as written, contextlib.redirect_stderr(written):
                console.say(os.fsdecode(b"\xff"))
            self.assertEqual(read.read(), b"\xff\n")


if __name__ == "__main__":
    unittest.main()
