"""Runs of the built program and of tools for `tools/check`: how they ended, what they used, and what they should have
written."""

from __future__ import annotations

import os
import pathlib
import re
import resource
import shutil
import signal
import subprocess
import tempfile
import time
from collections.abc import Callable
from dataclasses import dataclass
from typing import IO, Any

TOP = pathlib.Path(__file__).resolve().parent.parent
#: Seconds after which a run of the program, or a tool, counts as one that hangs.
RUN_LIMIT, TOOL_LIMIT = int(os.environ.get("CHECK_SECONDS", "60")), 600
#: Bytes of memory that a run may take besides the file and what each object takes: the program, stacks, buffers.
SPARE = 24 << 20


class Wrong(Exception):
    """What is wrong in a part."""


class LeftOut(Exception):
    """A part is skipped, since a program that it needs is missing."""


@dataclass
class Ended:
    """How a run of the program ended, the most threads that it was seen to have, the most bytes of memory that it used,
    and its processor seconds outside of the system."""

    status: int
    out: bytes
    err: bytes
    threads: int
    seconds: float
    peak: int
    user: float


def wait_for(
    process: subprocess.Popen[bytes], limit: float, look: Callable[[], None] = lambda: None
) -> resource.struct_rusage:
    """Waits until the process ends, and calls `look` every millisecond. Returns what the process used. Raises `Wrong`
    after `limit` seconds."""
    ends = time.monotonic() + limit
    while True:
        pid, status, used = os.wait4(process.pid, os.WNOHANG)
        if pid:
            process.returncode = os.waitstatus_to_exitcode(status)
            return resource.struct_rusage(used)
        if time.monotonic() > ends:
            raise Wrong(f"had not ended after {limit} seconds")
        look()
        time.sleep(0.001)


def threads_of(process: subprocess.Popen[bytes]) -> int:
    """Returns the number of threads that the process has now, 0 if it has ended."""
    try:
        return len(os.listdir(f"/proc/{process.pid}/task"))
    except OSError:
        return 0


def memory_of(process: subprocess.Popen[bytes]) -> int:
    """Returns the most bytes of memory that the process has used so far, 0 if it has ended. What the system adds up in
    the end has this program's own memory in it, from before the process began to run another one."""
    try:
        status = pathlib.Path(f"/proc/{process.pid}/status").read_text()
    except OSError:
        return 0
    found = re.search(r"^VmHWM:\s+(\d+) kB$", status, re.M)
    return 1024 * int(found[1]) if found else 0


def end(process: subprocess.Popen[bytes]) -> None:
    """Kills the process, and all that it has started."""
    try:
        os.killpg(process.pid, signal.SIGKILL)
    except ProcessLookupError:
        pass
    process.wait()


def start(words: list[str], out: IO[bytes], err: int | IO[bytes], **how: Any) -> subprocess.Popen[bytes]:
    """Starts a process in a session of its own, without standard input."""
    process: subprocess.Popen[bytes] = subprocess.Popen(
        words, stdin=subprocess.DEVNULL, stdout=out, stderr=err, start_new_session=True, **how
    )
    return process


def run(
    program: str,
    *words: str,
    err: int | None = None,
    meanwhile: Callable[[subprocess.Popen[bytes]], None] = lambda process: None,
    open_files: tuple[int, ...] = (),
    environment: dict[str, str] | None = None,
) -> Ended:
    """Runs the program with `words`, these open files and this environment (that of this program). `err`: where its
    standard error goes. Calls `meanwhile` when it has started."""
    most, peak, began = 0, 0, time.monotonic()

    def look() -> None:
        nonlocal most, peak
        most, peak = max(most, threads_of(process)), max(peak, memory_of(process))

    with tempfile.TemporaryFile() as out, tempfile.TemporaryFile() as said:
        process = start([program, *words], out, said if err is None else err, pass_fds=open_files, env=environment)
        try:
            meanwhile(process)
            used = wait_for(process, RUN_LIMIT, look)
        finally:
            end(process)
        seconds = time.monotonic() - began
        for file in (out, said):
            file.seek(0)
        return Ended(process.returncode, out.read(), said.read(), most, seconds, peak, used.ru_utime)


def require_report(ended: Ended, report: bytes) -> None:
    """Requires that a run wrote `report` and nothing else, with status 0."""
    if ended.status or ended.err:
        raise Wrong(f"status {ended.status}: {ended.err.decode(errors='replace')[:300]}")
    if ended.out != report:
        raise Wrong(f"wrote\n{ended.out.decode(errors='replace')[:2000]}in place of\n{report.decode()[:2000]}")


def require_refusal(ended: Ended, refusal: str) -> None:
    """Requires that a run ended with `refusal`, and wrote no report."""
    if (ended.status, ended.out, ended.err) != (1, b"", f"heapmark: refused {refusal}\n".encode()):
        raise Wrong(f"status {ended.status}, {len(ended.out)} bytes, {ended.err[:300]!r} in place of {refusal}")


def require_memory(ended: Ended, dump: str, objects: int, bytes_an_object: int) -> str:
    """Requires that a run on `dump`, which has `objects` objects, took no more memory than the file, `bytes_an_object`
    for each object, and `SPARE`. Returns what it took."""
    size = os.stat(dump).st_size
    took = (ended.peak - size) / objects
    if ended.peak > size + bytes_an_object * objects + SPARE:
        raise Wrong(f"took {took:.1f} bytes an object besides the file, of {bytes_an_object}")
    return f"{took:.1f} bytes an object"


def require(name: str) -> None:
    """Requires that a program is installed."""
    if not shutil.which(name):
        raise LeftOut(f"{name} is not here")


def run_tool(program: str, words: list[str], folder: str = "", **variables: str) -> list[str]:
    """Runs `words` in a folder of the repository and in a session of their own, with these variables and the program in
    HEAPMARK. Returns the lines that they printed."""
    with tempfile.TemporaryFile() as said:
        environment = {**os.environ, "HEAPMARK": program, **variables}
        process = start(words, said, subprocess.STDOUT, cwd=TOP / folder, env=environment)
        try:
            wait_for(process, TOOL_LIMIT)
        finally:
            end(process)
        said.seek(0)
        lines = said.read().decode(errors="replace").splitlines()
    if process.returncode:
        begins = next((at for at, line in enumerate(lines) if line.startswith("=====")), 0)  # where unittest says why
        wrong = [line for line in lines if line.startswith("FAILED:")]
        wrong = wrong or [line for line in lines[begins:] if not line.startswith("ok: ")]
        raise Wrong("\n".join([*wrong[:40], f"status {process.returncode}"]))
    return lines
