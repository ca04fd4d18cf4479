"""Standard output, standard error, and the line on a terminal that shows how far a tool is."""

import os
import re
import shutil
import sys
from typing import IO, Optional

from heap_tools.class_names import byte_escapes
from heap_tools.faults import UNWRITABLE, Fault


#: How many characters of a message are shown: the longest names of files have 4,096 bytes, each spelt by at most four
#: characters, but those of classes may have 65,535.
LONGEST_MESSAGE = 20_000


def in_one_line(text: str) -> str:
    """Spells what does not print, such as control characters and marks of direction, which a terminal would obey: each
    of their bytes as `\\x..`. Bytes of a file's name that are no text stay as they are."""
    return "".join(each if each.isprintable() or "\udc80" <= each <= "\udcff" else byte_escapes(each) for each in text)


def as_heapmark_spells(text: str) -> str:
    """Spells control characters as heapmark does in its messages."""
    return re.sub("[\0-\x1f\x7f-\x9f]", lambda it: "".join(f"\\x{byte:02x}" for byte in it[0].encode()), text)


def say(text: str) -> None:
    """Writes a line on standard error, of a very long one its beginning and its end. If it cannot be written, nobody
    would read it."""
    line = in_one_line(text)
    if len(line) > LONGEST_MESSAGE:
        line = f"{line[: LONGEST_MESSAGE // 2]} .. {line[-LONGEST_MESSAGE // 2 :]}"
    try:
        if sys.stderr:
            os.write(sys.stderr.fileno(), f"{line}\n".encode(errors="surrogateescape"))
    except OSError:
        pass


def write(text: str) -> None:
    """Writes on standard output. Raises `Fault`, without a message if a reader such as `head` has ended."""
    rest = memoryview(text.encode(errors="surrogateescape"))
    try:
        sys.stdout.fileno()
        while rest:
            rest = rest[os.write(1, rest) :]
    except BrokenPipeError:
        raise Fault(UNWRITABLE) from None
    except (OSError, AttributeError):
        raise Fault(UNWRITABLE, "the output cannot be written") from None


def is_terminal(stream: Optional[IO[str]]) -> bool:
    """Tests whether `stream`, which is None if it was closed, is a terminal."""
    return stream is not None and stream.isatty()


class Progress:
    """A line that says how far a tool is, on standard error if that is a terminal."""

    def __init__(self, tool: str) -> None:
        self.tool, self.width, self.is_shown = tool, 0, is_terminal(sys.stderr)

    def show(self, text: str) -> None:
        """Shows `text` in place of the line before, cut to the width of the terminal."""
        if self.is_shown:
            self._replace(in_one_line(f"{self.tool}: {text}")[: shutil.get_terminal_size().columns - 1])

    def clear(self) -> None:
        """Removes the line."""
        if self.width:
            self._replace("")

    def _replace(self, text: str) -> None:
        print(text.ljust(self.width), end="\r", file=sys.stderr, flush=True)
        self.width = len(text)
