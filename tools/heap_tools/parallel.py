"""Work that is shared out to processes, one for each processor."""

import os
import pickle
import signal
from typing import Any, BinaryIO, Callable, List, NamedTuple, NoReturn, TypeVar

from heap_tools.faults import UNREADABLE, Fault

Item = TypeVar("Item")
Result = TypeVar("Result")

#: How a process ends that ran out of memory.
NO_MEMORY = 3


def processors() -> int:
    """Returns how many processors this tool may use."""
    return len(os.sched_getaffinity(0))


class _Process(NamedTuple):
    """A process with a part of the work: its number, and the stream that its result comes from."""

    number: int
    stream: BinaryIO


def shared(function: Callable[[List[Item]], Result], items: List[Item], least: int) -> List[Result]:
    """Calls `function` with parts of the list `items`, each in a process of its own, and returns the results in the
    order of the items. There are as many parts as processors, but each has at least `least` items. A single part is
    done in this process; and so is all if the system starts no more processes. Raises the `Fault` or the `MemoryError`
    of the first process that failed, or `Fault` if it ended early."""
    count = max(1, min(processors(), len(items) // least))
    bounds = [len(items) * number // count for number in range(count + 1)]
    processes: List[_Process] = []
    try:
        try:
            for begin, end in zip(bounds, bounds[1:]) if count > 1 else ():
                processes.append(_started(function, items[begin:end]))
        except OSError:
            _end(processes)
        return [_next_result(processes) for _ in range(len(processes))] or [function(items)]
    finally:
        _end(processes)


def _end(processes: List[_Process]) -> None:
    """Ends processes, if they have not ended, and forgets them."""
    while processes:
        number, stream = processes.pop()
        stream.close()
        os.kill(number, signal.SIGKILL)
        os.waitpid(number, 0)


def _started(function: Callable[[List[Item]], Result], items: List[Item]) -> _Process:
    """Starts a process that calls `function`. Raises `OSError` if the system starts none."""
    reads, writes = os.pipe()
    try:
        number = os.fork()
        if number == 0:
            _work(function, items, writes)
    except OSError:
        os.close(reads)
        raise
    finally:
        os.close(writes)
    return _Process(number, open(reads, "rb"))


def _work(function: Callable[[List[Item]], Result], items: List[Item], writes: int) -> NoReturn:
    """Calls `function`, writes what it returns or the fault that it raises, and ends this process."""
    status = 1
    try:
        with open(writes, "wb") as stream:
            pickle.dump(_returned(function, items), stream)
        status = 0
    except MemoryError:
        status = NO_MEMORY
    finally:
        os._exit(status)


def _returned(function: Callable[[List[Item]], Result], items: List[Item]) -> Any:
    """Returns what `function` does, or the fault that it raises."""
    try:
        return function(items)
    except Fault as fault:
        return fault


def _next_result(processes: List[_Process]) -> Any:
    """Returns the result of the first of the processes, which then has ended, and forgets that one. Raises the fault
    that it raised, `MemoryError` if it ran out of memory, and `Fault` if it ended without a result."""
    content = processes[0].stream.read()
    number, stream = processes.pop(0)  # it is about to end: no signal may reach another one of its number
    stream.close()
    _, ended = os.waitpid(number, 0)
    if ended == NO_MEMORY << 8:
        raise MemoryError
    if ended:
        raise Fault(UNREADABLE, "a process that reads the dump ended early")
    result = pickle.loads(content)
    if isinstance(result, Fault):
        raise result
    return result
