"""Processes that a tool starts: what they print is read with a bound, and none outlives the tool."""

import contextlib
import errno
import fcntl
import os
import selectors
import signal
import subprocess
from subprocess import PIPE
from typing import IO, Any, BinaryIO, Callable, Dict, List, NamedTuple, Optional, Sequence, Tuple

from heap_tools.command_line import ENDING

#: The request of Linux that sets the size of a pipe (`fcntl` has its name only from Python 3.10 on), and the size.
F_SETPIPE_SZ, PIPE_SIZE = 1031, 1 << 20
#: The most bytes of messages that are read. heapmark writes some lines, each with a name of at most 4,096 bytes, which
#: it may spell four times as long.
MOST_SAID = 1 << 20

#: Writes what a process reads into a pipe, whose descriptor it gets.
Feed = Callable[[int], None]
#: Tests whether what a process has printed so far is the beginning of what it should print.
Wanted = Callable[[bytes], bool]


class NotStarted(Exception):
    """A program cannot be run; the text says why, and `number` is the system's number for that."""

    def __init__(self, number: int) -> None:
        super().__init__(os.strerror(number))
        self.number = number


class Ran(NamedTuple):
    """How a process ended: its status, its output, and the lines of its messages. `was_stopped`: it was ended, since it
    printed something else than was wanted, or too many messages."""

    status: int
    out: bytes
    said: List[str]
    was_stopped: bool = False


class Call(NamedTuple):
    """How a program is called: its words, and its standard input: the descriptor of an open file, or a pipe that `feed`
    writes to. Its messages go to a terminal if `to_terminal` is set. `wanted` bounds its output."""

    words: Sequence[str]
    wanted: Wanted
    stdin: Optional[int] = None
    feed: Optional[Feed] = None
    to_terminal: bool = False


class Child:
    """A process that was started for `call`, and what it has printed so far. Its messages come from `messages`."""

    def __init__(self, call: Call, process: "subprocess.Popen[bytes]", messages: BinaryIO) -> None:
        assert process.stdout
        self._call, self._process, self._messages = call, process, messages
        self._bounds: Dict[IO[bytes], Wanted] = {process.stdout: call.wanted, messages: _are_few}
        self._found = {stream: bytearray() for stream in self._bounds}
        self._was_stopped = False
        #: The streams that have not ended.
        self.streams = list(self._bounds)

    @property
    def is_done(self) -> bool:
        """Tests whether nothing more is to be read: all streams have ended, or one has what is not wanted of it."""
        return self._was_stopped or not self.streams

    def feed(self) -> None:
        """Writes what the process reads, if that is a pipe."""
        if self._call.feed and self._process.stdin:
            with self._process.stdin as pipe, contextlib.suppress(BrokenPipeError):  # then its status says why
                _widen(pipe)
                self._call.feed(pipe.fileno())

    def read(self, stream: IO[bytes]) -> None:
        """Reads what has come from one of `streams`, or notes its end."""
        try:
            part = os.read(stream.fileno(), 1 << 16)
        except OSError:  # how Linux says that nobody has the other end of a terminal
            part = b""
        if not part:
            self.streams.remove(stream)
        self._found[stream] += part
        self._was_stopped = not self._bounds[stream](self._found[stream])

    def ran(self) -> Ran:
        """Waits for the end of the process, which is done. Returns how it ended."""
        if self._was_stopped:
            self._process.kill()
        status, (out, said) = self._process.wait(), map(bytes, self._found.values())
        return Ran(status, out, said.decode(errors="surrogateescape").splitlines(), self._was_stopped)

    def end(self) -> None:
        """Ends the process, if it has not ended, and closes what was opened for it."""
        self._process.kill()
        self._process.wait()
        for stream in (self._process.stdin, self._process.stdout, self._messages):
            if stream:
                with contextlib.suppress(BrokenPipeError):
                    stream.close()


class Children:
    """Processes that run at the same time. When the block ends, also by a fault or an interrupt, all of them end."""

    def __init__(self) -> None:
        self._children: List[Child] = []

    def __enter__(self) -> "Children":
        return self

    def __exit__(self, *_: object) -> None:
        for child in self._children:
            child.end()

    def start(self, program: str, call: Call, environment: Dict[str, str]) -> Child:
        """Runs a program for `call`, and feeds it. Raises `NotStarted` if there is no such program."""
        child = _start(program, call, environment, self._children)
        child.feed()
        return child

    def next_ended(self) -> Tuple[Child, Ran]:
        """Reads what all of them print until one is done. Returns that one, and how it ended."""
        child = self._next_done()
        ran = child.ran()
        child.end()
        self._children.remove(child)
        return child, ran

    def _next_done(self) -> Child:
        """Reads from all streams as something comes, so that no process waits at a full pipe, until one is done."""
        with selectors.DefaultSelector() as waiting:
            for child in self._children:
                for stream in child.streams:
                    waiting.register(stream, selectors.EVENT_READ, (child, stream))
            while True:
                for key, _ in waiting.select():
                    child, stream = key.data
                    child.read(stream)
                    if child.is_done:
                        return child
                    if stream not in child.streams:
                        waiting.unregister(stream)


def _start(program: str, call: Call, environment: Dict[str, str], children: List[Child]) -> Child:
    """Starts a process and adds it to `children`. A signal that ends this tool is held back until it is there, so that
    `Children` can then end it. It inherits the files that the shell opened for this tool, such as /dev/fd/63. Raises
    `NotStarted` if the system does not start it."""
    try:
        read, written = _terminal() if call.to_terminal else os.pipe()
    except OSError as fault:
        raise NotStarted(fault.errno or errno.EIO) from None
    messages = open(read, "rb", 0)
    streams: Dict[str, Any] = {"stdin": PIPE if call.feed else call.stdin, "stdout": PIPE, "stderr": written}
    how: Dict[str, Any] = {"env": environment, "close_fds": False, "bufsize": 0, "preexec_fn": _in_child}
    signal.pthread_sigmask(signal.SIG_BLOCK, ENDING)
    try:
        children.append(Child(call, subprocess.Popen([program, *call.words], **how, **streams), messages))
        return children[-1]
    except OSError as fault:
        messages.close()
        raise NotStarted(fault.errno or errno.EIO) from None
    except subprocess.SubprocessError:  # the new process could not even run `_in_child`
        messages.close()
        raise NotStarted(errno.ENOMEM) from None
    finally:
        os.close(written)
        _unblock()


def _terminal() -> Tuple[int, int]:
    """Returns both ends of a terminal, or of a pipe if the system has no terminal left."""
    try:
        return os.openpty()
    except OSError:
        return os.pipe()


def _are_few(said: bytes) -> bool:
    """Tests whether messages have a length that heapmark's may have."""
    return len(said) <= MOST_SAID


def _widen(pipe: IO[bytes]) -> None:
    """Gives a pipe more room, with which a large dump takes two thirds of the time, if the system allows it."""
    with contextlib.suppress(OSError):
        fcntl.fcntl(pipe.fileno(), F_SETPIPE_SZ, PIPE_SIZE)


def _in_child() -> None:
    """Lets the signals that end a tool through, and ignores the one by which the system would end a program that writes
    more than a file may have: then heapmark reports that its output cannot be written."""
    _unblock()
    signal.signal(signal.SIGXFSZ, signal.SIG_IGN)


def _unblock() -> None:
    """Lets the signals that end a tool through."""
    signal.pthread_sigmask(signal.SIG_UNBLOCK, ENDING)
