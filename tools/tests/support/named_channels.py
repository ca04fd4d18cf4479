"""Dumps of services with four channels, of which one holds most, and which are named in some way."""

import builtins
from typing import Callable, NamedTuple, Sequence

from tests.support.dump_writer import BYTE, DumpWriter, word
from tests.support.services import MINUTE, add_properties
from tests.support.thread_locals import LOCAL, Threads

#: The identifiers of the channels, and the number of the one that holds most.
CHANNELS, HEAVY = range(1000, 1004), 1
#: The number of the process.
PROCESS = 90_773


class Way(NamedTuple):
    """A way in which a channel is named: `how` it is said, the texts that say it of the heavy one, whether these are
    the names of threads, and what writes the names of all."""

    how: Sequence[str]
    texts: Sequence[str]
    write: Callable[["Channels"], None]
    are_of_threads: bool = False


class Channels(Threads):
    """A static field has four channels, of which one has `size` bytes in its field `content`."""

    def __init__(self, size: int, minutes: int = 0) -> None:
        super().__init__()
        self.time = MINUTE * minutes
        self.of_class(20, "shop/Channel", {"ALL": 999}, fields=["name", "id", "reader", "labels", "content"])
        self.of_class(21, "[Lshop/Channel;")
        self.of_class(22, "shop/Reader", fields=["name"])
        self.of_class(23, "shop/Shelf", fields=["label", "channel"])
        self.of_class(24, "[Ljava/lang/String;")
        self.of_class(25, "shop/Worker", fields=["channel"], superclass=30)
        self.of_class(26, "java/lang/ProcessHandleImpl", {"current": 990}, fields=["startTime", "pid"])
        self.instance(990, 26, bytes(8), word(0) + word(PROCESS))
        self.array(999, 21, *CHANNELS)
        add_properties(self, "/home/alice/hush.jar --password=hush")
        self.root(20, 26)
        self.size = size

    def bytes(self) -> builtins.bytes:
        """Returns the whole dump, in which the boxed numbers have their field."""
        return super().bytes().replace(b"int__", b"value")

    def channels(self, *fields: Sequence[int]) -> None:
        """Writes the channels with these values of their fields but `content`, one sequence for each field."""
        for number, channel in enumerate(CHANNELS):
            values = [each[number] for each in fields] + [0] * (4 - len(fields))
            self.instance(channel, 20, *values, 30_000 + number)
            self.values(30_000 + number, BYTE, bytes(self.size if number == HEAVY else 20))

    def spelt(self, text: str, first: int) -> Sequence[int]:
        """Writes a text for each channel, which ends with the channel's number. Returns their identifiers."""
        found = range(first, first + len(CHANNELS))
        for number, each in enumerate(found):
            self.string(each, f"{text} {number}")
        return found


def by_fields(dump: Channels) -> None:
    """Names channels by two texts of their own."""
    dump.channels(dump.spelt("hush name", 40_000), dump.spelt("hush id", 40_100))


def by_key(dump: Channels) -> None:
    """Names channels by their keys in a map."""
    dump.channels()
    for number, key in enumerate(dump.spelt("hush key", 40_000)):
        dump.instance(41_000 + number, 5, key, CHANNELS[number])


def by_number(dump: Channels) -> None:
    """Names channels by numbers, their keys in a map."""
    dump.channels()
    for number, channel in enumerate(CHANNELS):
        dump.instance(40_000 + number, 8, word(7_731_940 + number))
        dump.instance(41_000 + number, 5, 40_000 + number, channel)


def by_owner(dump: Channels) -> None:
    """Names channels by the shelves that they are on."""
    dump.channels()
    for number, label in enumerate(dump.spelt("hush shelf", 40_000)):
        dump.instance(41_000 + number, 23, label, CHANNELS[number])


def by_part_and_owner(dump: Channels) -> None:
    """Names channels by their readers, and by the shelves that they are on."""
    readers = range(42_000, 42_000 + len(CHANNELS))
    dump.channels([0] * len(CHANNELS), [0] * len(CHANNELS), readers)
    for number, name in enumerate(dump.spelt("hush reader", 43_000)):
        dump.instance(readers[number], 22, name)
    for number, label in enumerate(dump.spelt("hush shelf", 40_000)):
        dump.instance(41_000 + number, 23, label, CHANNELS[number])


def by_label(dump: Channels) -> None:
    """Names channels by texts in small arrays."""
    labels, none = range(42_000, 42_000 + len(CHANNELS)), [0] * len(CHANNELS)
    dump.channels(none, none, none, labels)
    for number, text in enumerate(dump.spelt("hush label", 40_000)):
        dump.array(labels[number], 24, text)


def by_thread_local(dump: Channels) -> None:
    """Names channels by the threads that have them."""
    dump.channels()
    for number, channel in enumerate(CHANNELS):
        dump.having(1 + number, f"worker {number}", [(channel, LOCAL)])


def by_thread(dump: Channels) -> None:
    """Names channels by the threads that lead to them, which are no roots."""
    dump.channels()
    for number, name in enumerate(dump.spelt("worker", 40_000)):
        dump.instance(41_000 + number, 25, CHANNELS[number], name, 0, 0)


WAYS = (
    Way(["its field name", "its field id"], ['"hush name 1"', '"hush id 1"'], by_fields),
    Way(["the map's key"], ['"hush key 1"'], by_key),
    Way(["the map's key"], ["7731941"], by_number),
    Way(["of shop/Shelf, its field label"], ['"hush shelf 1"'], by_owner),
    Way(
        ["its field reader.name", "of shop/Shelf, its field label"],
        ['"hush reader 1"', '"hush shelf 1"'],
        by_part_and_owner,
    ),
    Way(["its field labels"], ['"hush label 1"'], by_label),
    Way(
        ["the thread-local static shop/Queues.LOCAL of thread"],
        ['"worker 1"'],
        by_thread_local,
        are_of_threads=True,
    ),
    Way(["of shop/Worker, its field name"], ['"worker 1"'], by_thread, are_of_threads=True),
)


def channels(way: Way, size: int, minutes: int = 0) -> DumpWriter:
    """Returns a dump in which the heavy channel has `size` bytes, and all are named in a way."""
    dump = Channels(size, minutes)
    way.write(dump)
    return dump
