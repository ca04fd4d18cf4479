"""A named pipe that finds out whether a program opens it more than once, for tools/check."""

from __future__ import annotations

import ctypes
import os
import pathlib
import struct
import subprocess
import threading
import time
from typing import Any

#: The event of inotify for a file that was open for reading and was closed.
IN_CLOSE_NOWRITE = 0x10
#: Seconds for which the pipe stays empty after the program has opened it.
SECONDS_EMPTY = 0.2


class WatchedPipe:
    """A named pipe at `path`, from which one process reads `content`.

    Raises `OSError` if the system cannot watch the pipe.
    """

    def __init__(self, path: str, content: bytes) -> None:
        self.path, self.content = path, content
        os.mkfifo(path)
        libc = ctypes.CDLL(None, use_errno=True)
        self.events: int = libc.inotify_init1(os.O_NONBLOCK | os.O_CLOEXEC)
        if libc.inotify_add_watch(self.events, path.encode(), IN_CLOSE_NOWRITE) < 0:
            raise OSError(ctypes.get_errno(), "inotify cannot watch a pipe")

    def close(self) -> None:
        """Ends the watch."""
        os.close(self.events)

    def feed(self, process: subprocess.Popen[Any], limit: float) -> bool:
        """Waits until the process opens the pipe, and starts a thread that writes the content.

        Returns `True` if the process has opened the pipe once in the `SECONDS_EMPTY` before the first byte: it then
        holds it once, and has not closed it. Returns `False` otherwise, and if the process does not open the pipe in
        `limit` seconds.
        """
        opened = self.open_to_write(process, limit)
        if opened is None:
            return False
        time.sleep(SECONDS_EMPTY)
        is_opened_once = self.times_held(process) <= 1 and not self.was_closed()
        threading.Thread(target=self.write, args=[opened], daemon=True).start()
        return is_opened_once

    def open_to_write(self, process: subprocess.Popen[Any], limit: float) -> int | None:
        """Opens the pipe for writing as soon as the process has opened it for reading.

        Returns `None` if the process ends first, or does not open it in `limit` seconds.
        """
        ends = time.monotonic() + limit
        while process.poll() is None and time.monotonic() < ends:
            try:
                return os.open(self.path, os.O_WRONLY | os.O_NONBLOCK)
            except OSError:
                time.sleep(0.001)
        return None

    def write(self, opened: int) -> None:
        """Writes the content until the process stops reading, and closes the pipe."""
        os.set_blocking(opened, True)
        try:
            with open(opened, "wb") as file:
                file.write(self.content)
        except BrokenPipeError:
            pass

    def times_held(self, process: subprocess.Popen[Any]) -> int:
        """Returns how many of the process's open files are the pipe."""
        try:
            return sum(os.path.realpath(it) == self.path for it in pathlib.Path(f"/proc/{process.pid}/fd").iterdir())
        except FileNotFoundError:
            return 0

    def was_closed(self) -> bool:
        """Tests whether a reader has closed the pipe."""
        try:
            events = os.read(self.events, 4096)
        except BlockingIOError:
            return False
        masks = (struct.unpack_from("iI", events, at)[1] for at in range(0, len(events), 16))
        return any(mask & IN_CLOSE_NOWRITE for mask in masks)
