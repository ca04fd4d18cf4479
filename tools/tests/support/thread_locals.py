"""Dumps with threads that have objects by thread-locals."""

from typing import Sequence, Tuple

from tests.support.dump_writer import BYTE
from tests.support.queues import Queues

#: The identifier of the thread-local that the static field `shop/Queues.LOCAL` names, and of one that none names.
LOCAL, OTHER_LOCAL = 210, 211
#: An object by its identifier, and the thread-local by which a thread has it.
Held = Tuple[int, int]


class Threads(Queues):
    """A dump to which threads can be written."""

    def __init__(self, sizes: Sequence[int] = ()) -> None:
        super().__init__(sizes)
        self.of_class(30, "java/lang/Thread", fields=["name", "threadLocals", "inheritableThreadLocals"])
        self.of_class(31, "java/lang/ThreadLocal$ThreadLocalMap", fields=["table"])
        self.of_class(32, "[Ljava/lang/ThreadLocal$ThreadLocalMap$Entry;")
        self.instance(OTHER_LOCAL, 9)

    def having(self, serial: int, name: str, own: Sequence[Held], inherited: Sequence[Held] = (), of: int = 30) -> None:
        """Writes a thread of the class `of` with the identifier 400000 + 100 `serial`. That of its name is 1 more,
        those of the maps are 10 and 20 more, and those of their entries 12 and 22 more, and the next ones."""
        first = 400_000 + 100 * serial
        self.thread(serial, first)
        self.string(first + 1, name)
        self.instance(first, of, first + 1, first + 10, first + 20)
        for begin, held in ((first + 10, own), (first + 20, inherited)):
            self.instance(begin, 31, begin + 1)
            self.array(begin + 1, 32, 0, *range(begin + 2, begin + 2 + len(held)))
            for number, (value, local) in enumerate(held):
                self.instance(begin + 2 + number, 7, value, local)


def buffers(sizes: Sequence[int], first: int = 1000) -> Threads:
    """Threads "worker n", each of which has a buffer, `first` + n, by a thread-local, with `sizes[n]` bytes in its
    field `content`."""
    dump = Threads()
    dump.of_class(20, "shop/Buffer", fields=["content"])
    for number, size in enumerate(sizes):
        dump.having(1 + number, f"worker {number}", [(first + number, LOCAL)])
        dump.instance(first + number, 20, 30_000 + number)
        dump.values(30_000 + number, BYTE, bytes(size))
    return dump
