"""Counts the threads that a program starts, for tools/check: by starve.c, which is loaded before the C library."""

from __future__ import annotations

import os
import pathlib
import subprocess

#: The C compiler.
COMPILER = os.environ.get("CC", "cc")


class StartedThreads:
    """Makes the library in the folder `room`. A program that runs in `environment` leaves its count there."""

    def __init__(self, room: str) -> None:
        library, self.counts = f"{room}/starve.so", pathlib.Path(room, "counts")
        source = pathlib.Path(__file__).with_name("starve.c")
        subprocess.run([COMPILER, "-O2", "-shared", "-fPIC", "-o", library, str(source), "-ldl"], check=True)
        self.environment = {**os.environ, "LD_PRELOAD": library, "STARVE_COUNT": str(self.counts)}

    def take(self) -> int:
        """Returns how many threads the last program started, and forgets it. Raises `OSError` if none left a count."""
        _, starts = self.counts.read_text(encoding="ascii").split()
        self.counts.unlink()
        return int(starts)
