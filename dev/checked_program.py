"""The parts of `tools/check` that try the built program where `rt ci` cannot: at pipes, on the largest dumps, with many
threads. Each is given the program and an empty folder, and returns what its line is to say."""

from __future__ import annotations

import os
import pathlib
import pty
import subprocess
import sys

import known_dumps
import real_dumps
from checked_run import (
    RUN_LIMIT,
    TOP,
    Ended,
    LeftOut,
    Wrong,
    require,
    require_memory,
    require_refusal,
    require_report,
    run,
    run_tool,
)
from started_threads import COMPILER, StartedThreads
from watched_pipe import WatchedPipe

CRATE, RETAINED = TOP / "crates/heapmark", TOP / "crates/retained"
SMALL, ONE_LABEL = CRATE / "data/two_objects.hprof", RETAINED / "data/one_label"
WORKERS = (1, 2, 4, 64)
#: The most bytes of memory for each object besides the file, if objects are in order and if they are in none, with at
#: most `FEW_WORKERS`. Those in no order are close together, so that narrow entries serve: 8.2 bytes, 4 for the place
#: and less than 1 for the rest. With wide entries it would be 17, and the bound and `SPARE` are 16.5 for 16,777,216.
IN_ORDER, IN_NO_ORDER, FEW_WORKERS = 11, 15, 4
#: What is done in parts if objects are in order, and if they are in none.
PHASES_IN_ORDER = ("reading", "gathering identifiers", "testing links", "counting unmarked objects")
PHASES_IN_NO_ORDER = ("reading", "noting granules", "testing links", "counting unmarked objects")
#: The most that the program's processor time may be beside the plain marker's, and how many runs of each are tried, of
#: which the shortest counts. A machine may be busy, so the bound is wide.
MOST_TIMES, TURNS = 3, 3
#: How many dumps with labels are made at random, and what chance begins with; the small dump of a virtual machine on
#: which all labels are tried. bench/ tries more.
RANDOM_DUMPS, SEED, LABELLED = "300", "1", "jdk21"
#: How many runs are tried until one is seen with the right number of threads: a look each millisecond may miss some,
#: and may see one that has ended and was joined, but is not gone.
LOOKS = 3


def with_workers(program: str, dump: str, report: bytes, bytes_an_object: int) -> str:
    """Requires of runs on `dump`, one for each number of workers, `report`, a thread for each worker and no other, and
    with at most `FEW_WORKERS` no more than `bytes_an_object` besides the file."""
    seconds, memory = [], ""
    for workers in WORKERS:
        for _ in range(LOOKS):
            ended = run(program, dump, "--workers", str(workers))
            require_report(ended, report)
            if ended.threads == workers + 1:
                break
        if ended.threads != workers + 1:
            raise Wrong(f"{workers} workers: at most {ended.threads} threads in place of {workers + 1}")
        seconds.append(f"{ended.seconds:.1f}")
        if workers <= FEW_WORKERS:
            memory = require_memory(ended, dump, known_dumps.MIXED_OBJECTS, bytes_an_object)
    return f"with {', '.join(map(str, WORKERS))} workers {', '.join(seconds)} s; with {FEW_WORKERS} {memory}"


def in_one_record(program: str, room: str) -> str:
    """Two million objects in one heap dump, with identifiers of 8 bytes in rising order."""
    report = known_dumps.write_mixed(f"{room}/dump", width=8, scattered=False, segments=False)
    return with_workers(program, f"{room}/dump", report, IN_ORDER)


def in_many_records(program: str, room: str) -> str:
    """Two million objects in segments, with identifiers of 4 bytes in no order."""
    report = known_dumps.write_mixed(f"{room}/dump", width=4, scattered=True, segments=True)
    return with_workers(program, f"{room}/dump", report, IN_NO_ORDER)


def threads_of_phases(program: str, room: str) -> str:
    """The threads that are started for two million objects: one for each worker, and in each phase that is done in
    parts one less than there are workers or processors, since the calling thread does a part, too."""
    require(COMPILER)
    counted = []
    for scattered, phases in ((False, PHASES_IN_ORDER), (True, PHASES_IN_NO_ORDER)):
        report = known_dumps.write_mixed(f"{room}/dump", width=4, scattered=scattered, segments=True)
        for workers in (1, 4):
            in_parts = min(workers, len(os.sched_getaffinity(0))) - 1
            counted.append(require_starts(program, room, workers + len(phases) * in_parts, report, workers))
    # At a terminal, the file is read again for the entries of a list that name no field.
    shown, terminal = pty.openpty()
    try:
        require_starts(program, room, 1, report, 1, "--skip", "no.field", err=terminal)
    finally:
        os.close(terminal)
        os.close(shown)
    return f"{', '.join(map(str, counted))} are started"


def require_starts(
    program: str, room: str, wanted: int, report: bytes, workers: int, *words: str, err: int | None = None
) -> int:
    """Requires that a run on the dump in `room` writes `report` and starts `wanted` threads, which it returns."""
    starts = StartedThreads(room)
    ended = run(program, f"{room}/dump", "--workers", str(workers), *words, err=err, environment=starts.environment)
    require_report(ended, report)
    started = starts.take()
    if started != wanted:
        raise Wrong(f"{workers} workers: {started} threads were started in place of {wanted}")
    return started


def beside_plain(program: str, room: str) -> str:
    """The processor time of two million objects, in order and in none, beside that of the plain marker of bench/plain,
    which is built for this."""
    require("rustc")
    plain = f"{room}/plain"
    run_tool(program, ["rustc", "--edition", "2024", "-O", "-o", plain, "bench/plain/main.rs"])
    ratios = []
    for width, scattered in ((8, False), (4, True)):
        report = known_dumps.write_mixed(f"{room}/dump", width=width, scattered=scattered, segments=scattered)
        least: dict[str, float] = {}
        for _ in range(TURNS):
            for name, words in ((program, ["--workers", "4"]), (plain, ["--threads", "4"])):
                ended = run(name, f"{room}/dump", *words)
                if ended.out != report:
                    raise Wrong(f"{name} wrote another report")
                least[name] = min(ended.user, least.get(name, ended.user))
        ratio = least[program] / max(0.01, least[plain])
        if ratio > MOST_TIMES:
            raise Wrong(f"{ratio:.1f} times the plain marker's processor time, of {MOST_TIMES}")
        ratios.append(f"{ratio:.2f}")
    return f"{', '.join(ratios)} times the plain marker's processor time"


def of_machines(program: str, room: str) -> str:
    """The small dumps of virtual machines, with reports that are not heapmark's own."""
    if not real_dumps.can_unpack():
        raise LeftOut("Python's lzma is not here")
    alike = []
    for name in real_dumps.names():
        report = real_dumps.unpack(name, f"{room}/dump")
        for workers in WORKERS:
            require_report(run(program, f"{room}/dump", "--workers", str(workers)), report)
        try:
            alike.append(f"{name} {real_dumps.require_counts(name)}")
        except real_dumps.Miscounted as wrong:
            raise Wrong(str(wrong)) from wrong
    if not alike:
        raise Wrong("there are none")
    return f"classes that the machine counts alike: {', '.join(alike)}"


def random_labels(program: str, room: str) -> str:
    """What retained prints for small dumps and labels made at random: for each object the labels without which it is
    not reachable, as bench/retained_random.rs finds them by a walk for each label."""
    require("rustc")
    judge = f"{room}/retained_random"
    run_tool(program, ["rustc", "--edition", "2024", "-O", "-o", judge, "bench/retained_random.rs"])
    run_tool(program, [judge, str(RETAINED / "out/retained"), SEED, RANDOM_DUMPS])
    return f"{RANDOM_DUMPS} dumps"


def labels_of_machines(program: str, room: str) -> str:
    """What retained says that each field, static field and root of the small dumps of virtual machines holds: the
    difference of two reports of heapmark, of the dump and of a copy without the references."""
    if not real_dumps.can_unpack():
        raise LeftOut("Python's lzma is not here")
    real_dumps.unpack(LABELLED, f"{room}/dump")
    words = ["--program", str(RETAINED / "out/retained"), "--judge", program, "--mixed", "2", f"{room}/dump"]
    lines = run_tool(program, [sys.executable, "bench/retained_check.py", "check", *words])
    return lines[0]


def largest_file(program: str, room: str) -> None:
    """The largest file that is read, and one of a byte more."""
    report = known_dumps.write_largest(f"{room}/dump")
    require_report(run(program, f"{room}/dump"), report)
    known_dumps.write_largest(f"{room}/dump", known_dumps.MOST_BYTES + 1)
    require_refusal(run(program, f"{room}/dump"), f"14 TooLarge at {known_dumps.MOST_BYTES}")


def most_objects(program: str, room: str) -> str:
    """As many objects as a dump may have, in order and in none, and one more."""
    memory = []
    for scattered, bytes_an_object in ((True, IN_NO_ORDER), (False, IN_ORDER)):
        report = known_dumps.write_most_objects(f"{room}/dump", scattered)
        ended = run(program, f"{room}/dump")
        require_report(ended, report)
        memory.append(require_memory(ended, f"{room}/dump", known_dumps.MOST_OBJECTS, bytes_an_object))
    place = known_dumps.add_an_object(f"{room}/dump")
    require_refusal(run(program, f"{room}/dump"), f"14 TooLarge at {place}")
    return f"in no order {memory[0]}, in order {memory[1]}"


def run_on_pipe(program: str, room: str, content: bytes, *words: str, err: int | None = None) -> Ended:
    """Runs the program on a named pipe that gives `content`. The program may open it once."""
    pipe = WatchedPipe(f"{room}/pipe", content)

    def feed(process: subprocess.Popen[bytes]) -> None:
        if not pipe.feed(process, RUN_LIMIT):
            raise Wrong("does not open a pipe once")

    try:
        return run(program, pipe.path, *words, meanwhile=feed, err=err)
    finally:
        pipe.close()
        os.remove(pipe.path)


def pipes(program: str, room: str) -> None:
    """Dumps from a pipe: small, cut, large; and at a terminal, where a plain file would be read again for a hint."""
    small, report = SMALL.read_bytes(), (CRATE / "stdout").read_bytes()
    require_report(run_on_pipe(program, room, small), report)
    require_refusal(run_on_pipe(program, room, small[:100]), "3 Truncated at 70")
    known = known_dumps.write_mixed(f"{room}/dump", width=8, scattered=False, segments=True)
    require_report(run_on_pipe(program, room, pathlib.Path(room, "dump").read_bytes()), known)
    with subprocess.Popen(["cat", SMALL], stdout=subprocess.PIPE) as cat:
        assert cat.stdout
        number = cat.stdout.fileno()
        require_report(run(program, f"/dev/fd/{number}", open_files=(number,)), report)
    at_terminal(program, room, small, ["--skip", "no.field"], (0, report))
    at_terminal(program, room, small[:100], [], (1, b""))


def at_terminal(program: str, room: str, content: bytes, words: list[str], wanted: tuple[int, bytes]) -> None:
    """Runs the program on a pipe with a terminal as standard error, and compares its status and its report."""
    shown, terminal = pty.openpty()
    try:
        ended = run_on_pipe(program, room, content, *words, err=terminal)
    finally:
        os.close(terminal)
        os.close(shown)
    if (ended.status, ended.out) != wanted:
        raise Wrong(f"at a terminal: status {ended.status}, {len(ended.out)} bytes")


#: The parts, by name.
PARTS = {
    "pipes": pipes,
    "small dumps of virtual machines": of_machines,
    "labels of random dumps": random_labels,
    "labels of a virtual machine's dump": labels_of_machines,
    "two million objects in one record": in_one_record,
    "two million objects in many records": in_many_records,
    "threads of each phase": threads_of_phases,
    "time beside the plain marker": beside_plain,
    "a file of 1 GiB, and of a byte more": largest_file,
    "16,777,216 objects, and one more": most_objects,
}
