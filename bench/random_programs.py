"""Programs made at random: their objects before and after they grew, and dumps of both. `random_marks.py` has a marker
for these objects, which knows nothing of dumps."""

from __future__ import annotations

import pathlib
import random
import re
import struct
import sys
from collections import defaultdict
from collections.abc import Iterator, Sequence
from typing import FrozenSet, NamedTuple, Optional, Tuple, Union

sys.path.insert(0, str(pathlib.Path(__file__).resolve().parent.parent / "tools"))

from tests.support.dump_writer import BYTE, DumpWriter  # noqa: E402

#: A kind and a name, as in a document of leaks, or a kind that only the marker knows: "weak" (references of a class),
#: "call" (of the JDK, or own) and "only" (a reference by itself).
Key = Tuple[str, str]
Keys = FrozenSet[Key]
#: The bytes of an object in the dump, and in the heap.
Sizes = Tuple[int, int]
OBJECT, ARRAY, BYTES, TEXT = "java/lang/Object", "[Ljava/lang/Object;", "byte[]", "java/lang/String"
NODE, KINDS = "java/util/HashMap$Node", ("Soft", "Weak", "Final", "Phantom")
REFERENCE, THREAD, METHODS = "java/lang/ref/Reference", "java/lang/Thread", ("serve", "poll", "main")
#: Of each class its superclass and its own fields, as `DumpWriter` takes them.
CLASSES = {
    OBJECT: ("", ""),
    ARRAY: (OBJECT, ""),
    TEXT: (OBJECT, "value,coder,hash int"),
    THREAD: (OBJECT, "name,target"),
    REFERENCE: (OBJECT, "referent,queue,next,discovered"),
    **{f"java/lang/ref/{kind}Reference": (REFERENCE, "") for kind in KINDS},
    "java/util/AbstractCollection": (OBJECT, ""),
    "java/util/AbstractMap": (OBJECT, ""),
    "java/util/ArrayList": ("java/util/AbstractCollection", "elementData,size"),
    "java/util/LinkedList": ("java/util/AbstractCollection", "first,last,size"),
    "java/util/LinkedList$Node": (OBJECT, "item,next,prev"),
    "java/util/HashMap": ("java/util/AbstractMap", "table,size"),
    NODE: (OBJECT, "hash int,key,value,next"),
    "[Ljava/util/HashMap$Node;": (OBJECT, ""),
    "java/util/concurrent/ThreadPoolExecutor": (OBJECT, "workQueue,workers"),
    "sun/nio/ch/SelectorImpl": (OBJECT, "keys,selectedKeys"),
    "app/Base": (OBJECT, "context,log"),
    "app/Store": ("app/Base", "stock,index"),
    "app/Cache": (OBJECT, "pages,last,owner"),
    "app/Hub": ("app/Base", "peers"),
    "app/PageMap": ("java/util/AbstractMap", "table"),
    "lib/Pool": (OBJECT, "entries,idle"),
    "lib/Bus": (OBJECT, "listeners,pending"),
    "app/Task": (OBJECT, "service,state"),
    "app/Link": (OBJECT, "next,data"),
    **{name: (OBJECT, "name,items,other") for name in ("app/Session", "shop/Tenant", "lib/Channel")},
    **{name: (OBJECT, "text,other") for name in ("app/Order", "app/User", "lib/Event", "java/net/URL")},
}
#: The classes of objects between roots and containers, the static fields of classes that have no instances, and the
#: classes of methods.
OWNERS = "app/Store app/Cache app/Hub app/PageMap lib/Pool lib/Bus app/Task sun/nio/ch/SelectorImpl".split()
OWNERS.append("java/util/concurrent/ThreadPoolExecutor")
STATICS = {
    "app/Main": "STORE CACHE JOBS",
    "app/Registry": "ALL BY_NAME",
    "shop/Desk": "OPEN LAST",
    "lib/Pools": "SHARED",
    "java/util/Timers": "TASKS",
    **{f"app/View$Proxy{number}": "CALLBACKS" for number in range(1, 6)},
}
CALLS = ("app/Server", "lib/Loop", "java/util/concurrent/Worker")
#: The identifiers of the first object and the first class: in a heap of 64 bits, with compressed references.
FIRST, FIRST_CLASS = 1 << 20, 1 << 28
#: How many objects show the layout of a heap.
CATALOG = 330


def in_heap(seed: int) -> bool:
    """Tests whether bytes are those of the heap in a pair. Then it has a catalog that does not grow."""
    return seed % 4 == 0


def lineage(of_class: str) -> Iterator[str]:
    """Yields a class and those that it inherits from."""
    while of_class:
        yield of_class
        of_class = CLASSES.get(of_class, ("", ""))[0]


def pattern(name: str) -> str:
    """Returns a name with `*` for each number in it."""
    return re.sub("[0-9]+", "*", name)


class Thing:
    """An object: its class, the references in its fields or its elements, its size if it is a container, and the
    content of an array of bytes. `tag` is the text that names it."""

    def __init__(
        self, of_class: str, at: int = 0, elements: Sequence[Optional[Thing]] = (), content: bytes = b""
    ) -> None:
        self.of_class, self.at, self.elements, self.content, self.tag = of_class, at, elements, content, ""
        self.values: dict[str, Optional[Thing]] = {}
        self.size = 0
        self.fields: list[tuple[Key, str]] = []
        for owner in lineage(of_class) if of_class != BYTES else ():
            for field in filter(None, CLASSES[owner][1].split(",")):
                if field in ("size", "coder") or " " in field:
                    self.fields.append((("number", field), field))
                else:
                    self.fields.append((("field", f"{owner}.{field}"), field))

    def sizes(self) -> Sizes:
        """Returns the bytes in the dump, and in the heap."""
        if self.of_class == BYTES:
            return len(self.content), (16 + len(self.content) + 7) // 8 * 8
        if self.of_class[0] == "[":
            return 8 * len(self.elements), (16 + 4 * len(self.elements) + 7) // 8 * 8
        parts = [8 if key[0] == "field" else 1 if field == "coder" else 4 for key, field in self.fields]
        return sum(parts), (12 + sum(min(part, 4) for part in parts) + 7) // 8 * 8

    def spelled(self, field: tuple[Key, str]) -> Union[int, bytes]:
        """Returns the value of a field, as `DumpWriter` takes it."""
        (kind, _), name = field
        to = self.values.get(name)
        if kind == "field":
            return to.at if to else 0
        return bytes(1) if name == "coder" else struct.pack(">I", self.size)

    def edges(self) -> Iterator[tuple[Keys, Thing]]:
        """Yields what it leads to, with the names of the references."""
        for number, each in enumerate(self.elements):
            if each:
                yield frozenset([("only", f"{self.at} {number}")]), each
        for key, field in self.fields:
            to = self.values.get(field)
            if to:
                names = [key, ("only", f"{self.at} {key[1]}"), *[("weak", self.of_class)] * (field == "referent")]
                yield frozenset(names), to


class Part:
    """A part of a program: a container with items, or with groups that have some each, and what leads to it. `after` is
    said where the two dumps differ. All that is drawn by chance is drawn here, once for both."""

    def __init__(self, chance: random.Random, number: int, parts: int) -> None:
        self.number, few, many = number, chance.randrange(30), chance.randrange(40, 260)
        changes = [(few, few + many), (few, few), (few + 9, few), (few + 9, 0), (0, few + 9), (many, many)]
        grows = number == 0 or number < 3 and chance.random() < 0.35
        self.counts = changes[0] if grows else chance.choices(changes, [1, 4, 2, 1, 2, 2])[0]
        self.kind = chance.choice(["array", "list", "list", "map", "linked", "chain"])
        self.item, self.size = chance.choice(["app/Order", "app/User", "lib/Event", "java/net/URL"]), chance.randrange(
            90
        )
        self.group = chance.choice(["app/Session", "shop/Tenant", "lib/Channel"])
        self.groups = chance.choice([0, 0, 0, 2, 5, 12, 30])
        self.inner, self.mode = chance.choice(["array", "list", "map", "chain"]), chance.choice(
            ["one", "one", "few", "even", "new"]
        )
        self.chosen, self.is_named = chance.randrange(100), chance.random() < 0.7
        self.links = [self.link(chance) for _ in range(chance.choice([0, 0, 1, 1, 2]))]
        self.routes = [self.route(chance, parts) for _ in range(chance.choice([1, 1, 1, 1, 1, 2, 2, 2, 3]))]
        if self.routes[0].kind in ("item", "weak") and chance.random() < 0.85:
            self.routes[0] = Route("static", self.static(chance), self.routes[0].links)
        self.moves = len(self.routes) > 1 and not grows and chance.random() < 0.15
        self.other, self.every = chance.randrange(parts), chance.choice([0, 0, 0, 1, 3])

    def link(self, chance: random.Random) -> tuple[str, str, int]:
        """Returns an object that leads to the next one: its class, the field, and how many there are; 0: the one that
        other parts have, too."""
        of_class = chance.choice(OWNERS)
        fields = [field for owner in lineage(of_class) for field in CLASSES[owner][1].split(",") if field]
        return of_class, chance.choice(fields), chance.choice([0, 0, 0, 1, 1, 1, 3, 20])

    def static(self, chance: random.Random) -> str:
        """Returns a static field."""
        owner = chance.choice(list(STATICS)[:5])
        return f"{owner}.{chance.choice(STATICS[owner].split())}"

    def route(self, chance: random.Random, parts: int) -> Route:
        """Returns what leads to the part, or to some of its items."""
        kinds = ["static", "local", "thread", "item", "weak", "alike"]
        kind = chance.choices(kinds, [10, 3, 3, 2, 1, 1])[0]
        links = tuple(self.link(chance) for _ in range(chance.choice([0, 0, 1, 1, 2])))
        threads = chance.choice([(0,), (1,), (2,), (0, 1), (0, 1, 2)])
        part = chance.choice([1, 1, 1, 1, 2, 3]) if self.number else 1
        name = self.static(chance) if kind == "static" else chance.choice(["Soft", "Weak", "Weak", "Final", "Phantom"])
        return Route(kind, name, links, threads, chance.randrange(2), chance.randrange(parts), part)


class Route(NamedTuple):
    """What leads to a part: static fields, local variables, fields of threads, items of another part, weak references
    or static fields of classes alike. If `part` is not 1, it leads only to items whose number `part` divides."""

    kind: str
    name: str
    links: tuple[tuple[str, str, int], ...] = ()
    threads: tuple[int, ...] = (0,)
    frame: int = 0
    of: int = 0
    part: int = 1


class Program:
    """The objects of a program, before or `after` its parts changed."""

    def __init__(self, seed: int, after: bool) -> None:
        chance = random.Random(seed)
        parts = chance.randrange(2, 8)
        self.parts = [Part(chance, number, parts) for number in range(parts)]
        self.after, self.at, self.things = after, FIRST, list[Thing]()
        self.thread_names = chance.choice([["main"], ["main", "worker-1"], ["main", "worker-1", "worker-2"]])
        if chance.random() < 0.2:
            self.thread_names += [f"report-{number}" for number in range(3 + 4 * after)]
        self.singles: dict[str, Thing] = {}
        self.statics: dict[str, list[Thing]] = defaultdict(list)
        self.locals: dict[tuple[int, int], list[Thing]] = defaultdict(list)
        self.threads = [self.new(THREAD, name=self.text(name)) for name in self.thread_names]
        for thread, name in zip(self.threads, self.thread_names):
            thread.tag = name
        self.tasks: dict[int, list[Thing]] = defaultdict(list)
        self.items: list[list[Thing]] = []
        if in_heap(seed):
            catalog = [self.new("java/net/URL", text=self.data(bytes(number % 50))) for number in range(CATALOG)]
            self.statics["shop/Desk.LAST"].append(self.array(catalog))
        self.tops = [self.content(part) for part in self.parts]
        for part, items, top in zip(self.parts, self.items, self.tops):
            target = self.linked(part.links, top)
            for each in items[:: part.every] if part.every else ():
                others = self.items[part.other]
                each.values["other"] = others[each.at // 8 % len(others)] if others else None
            for route in part.routes[1:] if part.moves and after else part.routes[:1] if part.moves else part.routes:
                some = self.array(items[:: route.part])
                self.attach(route, self.linked(route.links, target if route.part == 1 else some))
        for name, targets in self.statics.items():
            self.statics[name] = targets if len(targets) == 1 else [self.array(targets)]
        for number, targets in self.tasks.items():
            service = targets[0] if len(targets) == 1 else self.array(targets)
            self.threads[number].values["target"] = self.new("app/Task", service=service)

    def placed(self, thing: Thing) -> Thing:
        """Gives an object its place in the heap."""
        thing.at, self.at = self.at, self.at + thing.sizes()[1]
        self.things.append(thing)
        return thing

    def new(self, of_class: str, size: int = 0, **values: Optional[Thing]) -> Thing:
        """Makes an instance with these values."""
        thing = Thing(of_class)
        thing.values, thing.size = values, size
        return self.placed(thing)

    def array(self, elements: Sequence[Optional[Thing]], of_class: str = ARRAY) -> Thing:
        """Makes an array of references."""
        return self.placed(Thing(of_class, elements=list(elements)))

    def data(self, content: bytes) -> Thing:
        """Makes an array of bytes."""
        return self.placed(Thing(BYTES, content=content))

    def text(self, text: str) -> Thing:
        """Makes a text."""
        return self.new(TEXT, value=self.data(text.encode()))

    def content(self, part: Part) -> Thing:
        """Makes the container of a part with its items, and returns it."""
        count, items = part.counts[self.after], list[Thing]()
        self.items.append(items)
        if not part.groups:
            items += [self.item(part, number) for number in range(count)]
            return self.container(part.kind, items)
        before, more = part.counts[0], max(0, count - part.counts[0])
        groups = part.groups + more // (1 + before // part.groups) * (part.mode == "new")
        grown = {"one": 1, "few": 3, "even": groups, "new": 0}[part.mode]
        found = []
        for number in range(groups):
            own = min(before, count) // part.groups
            if (number - part.chosen) % groups < grown:
                own += more // grown
            of_group = [self.item(part, number) for number in range(own)]
            items += of_group
            group = self.new(part.group, items=self.container(part.inner, of_group))
            if part.is_named:
                group.tag = f"{part.group[-3:]}-{part.number}-{number}"
                group.values["name"] = self.text(group.tag)
            found.append(group)
        return self.container(part.kind, found)

    def item(self, part: Part, number: int) -> Thing:
        """Makes an item of a part."""
        return self.new(part.item, text=self.data(bytes((part.size + 5 * number) % 97)) if part.size else None)

    def container(self, kind: str, content: list[Thing]) -> Thing:
        """Makes a container."""
        if kind == "list":
            return self.new("java/util/ArrayList", len(content), elementData=self.array([*content, None, None]))
        if kind == "map":
            keys = [self.text(each.tag or f"key-{number}") for number, each in enumerate(content)]
            table: list[Optional[Thing]] = [None] * (1 + len(content))
            for number, (key, each) in enumerate(zip(keys, content)):
                at = 7 * number % len(table)
                table[at] = self.new(NODE, key=key, value=each, next=table[at])
            return self.new("java/util/HashMap", len(content), table=self.array(table, "[Ljava/util/HashMap$Node;"))
        if kind == "linked":
            nodes = [self.new("java/util/LinkedList$Node", item=each) for each in content]
            for one, following in zip(nodes, nodes[1:]):
                one.values["next"], following.values["prev"] = following, one
            head, tail = (nodes[0], nodes[-1]) if nodes else (None, None)
            return self.new("java/util/LinkedList", len(content), first=head, last=tail)
        if kind == "chain":
            first: Optional[Thing] = None
            for each in content:
                first = self.new("app/Link", data=each, next=first)
            return first or self.new("app/Link")
        return self.array(content)

    def linked(self, links: Sequence[tuple[str, str, int]], target: Thing) -> Thing:
        """Makes the objects that lead to `target`, and returns the first."""
        for of_class, field, copies in links:
            if copies > 1:
                owners = [self.new(of_class) for _ in range(copies)]
                for each in owners:
                    each.values[field] = target
                target = self.array(owners)
                continue
            if of_class not in self.singles and not copies:
                self.singles[of_class] = self.new(of_class)
            owner = self.new(of_class) if copies else self.singles[of_class]
            was = owner.values.get(field)
            owner.values[field] = self.array([was, target]) if was and was is not target else target
            target = owner
        return target

    def attach(self, route: Route, target: Thing) -> None:
        """Makes a route lead to `target`."""
        if route.kind == "static":
            self.statics[route.name].append(target)
        elif route.kind == "alike":
            for number in range(1, 6):
                self.statics[f"app/View$Proxy{number}.CALLBACKS"].append(target)
        elif route.kind == "weak":
            weak = self.array([self.new(f"java/lang/ref/{route.name}Reference", referent=target) for _ in range(2)])
            self.statics["java/util/Timers.TASKS"].append(weak)
        elif route.kind == "item":
            for each in self.items[route.of][:: 1 + route.frame]:
                each.values["other"] = target
        for number in route.threads:
            if number < len(self.threads) and route.kind == "local":
                self.locals[number, route.frame].append(target)
            if number < len(self.threads) and route.kind == "thread":
                self.tasks[number].append(target)

    def frames(self, thread: int) -> list[str]:
        """Returns the methods of a thread, each with its class."""
        return [f"{CALLS[(thread + at) % 3]}.{METHODS[at]}" for at in range(2)]

    def roots(self) -> Iterator[tuple[Keys, Thing]]:
        """Yields what roots and static fields lead to, with the names of these: classes are never unloaded."""
        for name, targets in self.statics.items():
            yield frozenset([("static", name), ("static", pattern(name))]), targets[0]
        for number, thread in enumerate(self.threads):
            name = self.thread_names[number]
            of_thread = {("thread", name), ("threads", pattern(name)), ("threads", "")}
            yield frozenset(of_thread), thread
            for at, method in enumerate(self.frames(number)):
                call = "jdk" if method.startswith("java/") else "own"
                for each in self.locals[number, at]:
                    yield frozenset([*of_thread, ("local", method), ("call", call)]), each

    def write(self, path: str) -> None:
        """Writes the dump."""
        dump = DumpWriter(time=1000 + 3_600_000 * self.after)
        numbers = {name: FIRST_CLASS + 4096 * at for at, name in enumerate([*CLASSES, *STATICS, *CALLS])}
        for name, number in numbers.items():
            superclass, fields = CLASSES.get(name, (OBJECT, ""))
            names = [f"{name}.{field}" for field in STATICS.get(name, "").split()]
            values = {it.rpartition(".")[2]: self.statics[it][0].at if self.statics.get(it) else 0 for it in names}
            dump.of_class(number, name, values, [it for it in fields.split(",") if it], numbers.get(superclass, 0))
        for each in self.things:
            if each.of_class == BYTES:
                dump.values(each.at, BYTE, each.content)
            elif each.of_class[0] == "[":
                dump.array(each.at, numbers[each.of_class], *(it.at if it else 0 for it in each.elements))
            else:
                dump.instance(each.at, numbers[each.of_class], *map(each.spelled, each.fields))
        for number, thread in enumerate(self.threads):
            methods = [method.rpartition(".") for method in self.frames(number)]
            dump.thread(number + 1, thread.at, [(numbers[owner], name) for owner, _, name in methods])
            for at in range(2):
                dump.local(number + 1, at, *(each.at for each in self.locals[number, at]))
        dump.root(*numbers.values())
        dump.write(path)
