"""Dumps with many queues, each of which has a name and holds some bytes."""

from typing import Optional, Sequence

from tests.support.dump_writer import BYTE, DumpWriter, word


class Queues(DumpWriter):
    """A static field names an array of queues. Queue `n` has the identifier `first` + n, a name, and an array of bytes.
    The queues `sharing` have one array. The static field names the object `every`. `names` are those of the queues,
    None for a queue without one; if there are none, they have their numbers."""

    def __init__(
        self,
        sizes: Sequence[int],
        id_size: int = 8,
        sharing: Sequence[int] = (),
        every: int = 200,
        names: Sequence[Optional[str]] = (),
        first: int = 1000,
        time: int = 0,
    ) -> None:
        super().__init__(id_size, time)
        self.of_class(1, "shop/Queues", {"ALL": every, "LOCAL": 210})
        self.of_class(2, "[Lshop/Queue;")
        self.of_class(3, "java/lang/String", fields=["value", "coder"])
        self.of_class(4, "shop/Queue", fields=["intSize", "name", "content"])
        self.of_class(5, "java/util/HashMap$Node", fields=["key", "value"])
        self.of_class(6, "java/lang/ref/Reference", fields=["referent"])
        self.of_class(7, "java/lang/ThreadLocal$ThreadLocalMap$Entry", fields=["value"], superclass=6)
        self.of_class(8, "java/lang/Integer", fields=["int__"])
        self.of_class(9, "java/lang/ThreadLocal")
        self.array(200, 2, *range(first, first + len(sizes)))
        self.instance(210, 9)
        for number, size in enumerate(sizes):
            content = 30_000 + (sharing[0] if number in sharing else number)
            name = names[number] if names else f"queue {number}"
            self.instance(first + number, 4, word(size), 0 if name is None else 20_000 + number, content)
            if name is not None:
                self.string(20_000 + number, name)
            self.values(30_000 + number, BYTE, bytes(size))
        self.root(1)

    def string(self, number: int, text: str) -> None:
        """Writes a String."""
        self.instance(number, 3, number + 100_000, b"\0")
        self.values(number + 100_000, BYTE, text.encode("latin-1"))


class Folders(DumpWriter):
    """Folders in folders: folder `n` has the identifier 1000 + n and a name; `below[n]` is a folder that it has in the
    array of its field `folders`, 0 if it has none, and `sizes[n]` the bytes of a file in that array."""

    def __init__(self, below: Sequence[int], sizes: Sequence[int], id_size: int = 8) -> None:
        super().__init__(id_size)
        self.of_class(1, "disk/Disk", {"TOP": 1000})
        self.of_class(2, "[Ljava/lang/Object;")
        self.of_class(3, "java/lang/String", fields=["value", "coder"])
        self.of_class(4, "disk/Folder", fields=["name", "folders"])
        for number, size in enumerate(sizes):
            folder = below[number] if number < len(below) else 0
            self.instance(1000 + number, 4, 10_000 + number, 20_000 + number)
            self.array(20_000 + number, 2, 1000 + folder if folder else 0, 30_000 + number)
            self.values(30_000 + number, BYTE, bytes(size))
            self.instance(10_000 + number, 3, 40_000 + number, b"\0")
            self.values(40_000 + number, BYTE, b"folder %d" % number)
        self.root(1)


class Chains(DumpWriter):
    """A static field names a shop, whose field `rooms` leads to a map with an array of `chains` chains of entries of
    the class `entry`, or with `linked` of one that inherits from it, which the map's first entry leads to, too. The
    entry `n` has the key "room n" and `sizes[n]` bytes. `is_set`: the key is a room of that name with these bytes, and
    the value is the same object for all. `alone`: how many more chains with an entry without bytes there are."""

    def __init__(
        self,
        sizes: Sequence[int],
        entry: str,
        linked: bool = False,
        is_set: bool = False,
        chains: int = 2,
        alone: int = 0,
    ) -> None:
        super().__init__()
        self.of_class(1, "shop/Shop", {"ONE": 100}, fields=["rooms"])
        self.of_class(2, "java/util/HashMap", fields=["head", "table"])
        self.of_class(3, "java/lang/String", fields=["value", "coder"])
        self.of_class(4, entry, fields=["key", "val" if "concurrent" in entry else "value", "next"])
        self.of_class(5, "java/util/LinkedHashMap$Entry", fields=["after"], superclass=4)
        self.of_class(6, "[Ljava/lang/Object;")
        self.of_class(7, "shop/Room", fields=["name", "content"])
        self.instance(100, 1, 200)
        self.instance(200, 2, 1000 if linked else 0, 201)
        count = len(sizes) + alone
        self.array(201, 6, *range(1000, 1000 + chains), *range(1000 + len(sizes), 1000 + count))
        self.values(202, BYTE, b"")
        for number in range(count):
            text, content, room = 2000 + number, 3000 + number, 4000 + number
            after = [1001 + number if number + 1 < count else 0] if linked else []
            follower = 1000 + number + chains if number + chains < len(sizes) else 0
            key, value = (room, 202) if is_set else (text, content)
            self.instance(1000 + number, 5 if linked else 4, *after, key, value, follower)
            self.instance(text, 3, text + 10_000, b"\0")
            self.values(text + 10_000, BYTE, b"room %d" % number)
            self.values(content, BYTE, bytes(sizes[number] if number < len(sizes) else 0))
            self.instance(room, 7, text, content if is_set else 0)
        self.root(1)
