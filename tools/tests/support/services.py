"""Small dumps of services that leak beside a catalog."""

import struct
from typing import Sequence

from tests.support.dump_writer import BYTE, LONG, OBJECT, DumpWriter, word

MINUTE = 60000


class Service(DumpWriter):
    """A service with a static field that holds a catalog: an array of 100 products with 20 bytes each."""

    def __init__(self, minutes: int = 0, id_size: int = 8) -> None:
        super().__init__(id_size, MINUTE * minutes)
        self.of_class(1, "shop/Catalog", {"ALL": 1000})
        self.of_class(2, "[Lshop/Product;")
        self.of_class(3, "shop/Product", fields=["picture"])
        self.of_class(4, "[Ljava/lang/Object;")
        self.array(1000, 2, *range(1001, 1101))
        for number in range(1001, 1101):
            self.instance(number, 3, number + 1000)
            self.values(number + 1000, BYTE, bytes(20))
        self.root(1)

    def orders(self, count: int, array: int = 5000, name: str = "shop/Order") -> None:
        """Writes an array of `count` orders with 20 bytes each."""
        self.of_class(5, name, fields=["text"])
        self.array(array, 4, *range(array + 1, array + 1 + count))
        for number in range(array + 1, array + 1 + count):
            self.instance(number, 5, number + 1000)
            self.values(number + 1000, BYTE, bytes(20))


def cache(count: int, minutes: int = 0, id_size: int = 8) -> Service:
    """A static field holds a cache, which has an array of orders."""
    dump = Service(minutes, id_size)
    dump.of_class(6, "shop/Service", {"CACHE": 600})
    dump.of_class(7, "shop/Cache", fields=["table", "intSize"])
    dump.instance(600, 7, 5000, word(count))
    dump.orders(count)
    dump.root(6)
    return dump


def uploads(count: int) -> Service:
    """A field of the only upload has an array of `count` arrays of 200 bytes; a static field names the upload."""
    dump = Service()
    dump.of_class(6, "shop/Upload", {"UPLOAD": 600}, fields=["chunks"])
    dump.array(601, 4, *range(5001, 5001 + count))
    dump.instance(600, 6, 601)
    for number in range(5001, 5001 + count):
        dump.values(number, BYTE, bytes(200))
    dump.root(6)
    return dump


def lambdas(count: int, address: str) -> Service:
    """A lambda, whose class has this address, holds the orders. With no orders, there is no lambda."""
    dump = Service()
    if count:
        dump.of_class(6, f"shop/Bus$$Lambda$14+0x{address}", fields=["arg$1"])
        dump.of_class(7, "shop/Bus", {"LISTENER": 600})
        dump.instance(600, 6, 5000)
        dump.orders(count)
        dump.root(7)
    return dump


def worker(count: int) -> Service:
    """A static field and a worker thread have an executor, whose queue has an array of orders."""
    dump = Service()
    dump.of_class(6, "shop/Service", {"TIMER": 600})
    dump.of_class(7, "java/util/Executor", fields=["queue"])
    dump.of_class(8, "java/util/Queue", fields=["table"])
    dump.of_class(9, "java/lang/Thread", fields=["name"])
    dump.thread(1, 700, [(8, "take")])
    dump.local(1, 0, 600)
    dump.instance(600, 7, 601)
    dump.instance(601, 8, 5000)
    dump.instance(700, 9, 0)
    dump.orders(count)
    dump.root(6)
    return dump


def handler(count: int, name: str = "http-0") -> Service:
    """A local variable of a thread with this name holds the orders."""
    dump = Service()
    dump.of_class(6, "java/lang/Thread", fields=["name"])
    dump.of_class(7, "java/lang/String", fields=["value", "coder"])
    dump.of_class(8, "shop/Handler")
    dump.thread(1, 700, [(8, "handle")])
    dump.local(1, 0, 5000)
    dump.instance(700, 6, 701)
    dump.instance(701, 7, 702, b"\0")
    dump.values(702, BYTE, name.encode())
    dump.orders(count)
    return dump


def dispatched(count: int, workers: str = "abcdefgh") -> Service:
    """A server of the JDK has the orders. The threads that are its dispatcher and its workers lead to it, a weak
    reference does, and a task that nothing leads to."""
    dump = Service()
    dump.of_class(6, "java/lang/Thread", fields=["name", "target"])
    dump.of_class(7, "java/lang/String", fields=["value", "coder"])
    dump.of_class(8, "sun/net/httpserver/ServerImpl", fields=["contexts"])
    dump.of_class(9, "sun/net/httpserver/ServerImpl$Task", fields=["this$0", "owner"])
    dump.of_class(10, "java/lang/ref/Reference", fields=["referent"])
    dump.of_class(11, "java/lang/ref/WeakReference", {"FIRST": 650}, superclass=10)
    dump.instance(600, 8, 5000)
    dump.instance(601, 9, 600, 600)
    dump.instance(650, 11, 600)
    for number, name in enumerate(["HTTP-Dispatcher", *(f"worker {each}" for each in workers)], 1):
        at = 700 + 10 * number
        dump.thread(number, at)
        dump.instance(at, 6, at + 1, at + 3)
        dump.instance(at + 1, 7, at + 2, b"\0")
        dump.values(at + 2, BYTE, name.encode())
        dump.instance(at + 3, 9, 600, at)
    dump.orders(count)
    dump.root(11)
    return dump


def journal(count: int) -> Service:
    """Two static fields of different classes hold the orders, only together."""
    dump = Service()
    dump.of_class(6, "shop/Journal", {"EVENTS": 5000})
    dump.of_class(7, "shop/Screen", {"SHOWN": 5000})
    dump.orders(count)
    dump.root(6, 7)
    return dump


def moved(count: int) -> DumpWriter:
    """The catalog has 100 products in all: those that are not sold; the sold ones are in another static field."""
    dump = DumpWriter()
    dump.of_class(1, "shop/Catalog", {"ALL": 1000, "SOLD": 1001})
    dump.of_class(2, "shop/Product")
    dump.of_class(3, "shop/Sold")
    dump.of_class(4, "[Ljava/lang/Object;")
    numbers = list(range(2000, 2100))
    dump.array(1000, 4, *numbers[count:])
    dump.array(1001, 4, *numbers[:count])
    for at, number in enumerate(numbers):
        dump.instance(number, 3 if at < count else 2)
    dump.root(1)
    return dump


def running(count: int, methods: Sequence[str] = ("callAppenders",), name: str = "shop/Service") -> Service:
    """Like `cache`, while threads are in calls of the class `name`: their local variables lead to the array, too."""
    dump = cache(count)
    dump.of_class(8, name)
    dump.of_class(9, "java/lang/Thread")
    for number, method in enumerate(methods, 1):
        dump.thread(number, 700 + number, [(8, method)])
        dump.local(number, 0, 5000)
        dump.instance(700 + number, 9)
    return dump


def scheduled(count: int, tasks: int, size: int = 30) -> Service:
    """A list has tasks with texts of so many bytes. Each leads to the one service, which has the orders."""
    dump = Service()
    dump.of_class(6, "shop/Timer", {"TASKS": 600})
    dump.of_class(7, "java/util/ArrayList", fields=["elementData", "size"])
    dump.of_class(8, "shop/Task", fields=["service", "text"])
    dump.of_class(9, "shop/Service", fields=["log"])
    dump.instance(600, 7, 601, word(tasks))
    dump.array(601, 4, *range(700, 700 + tasks))
    for number in range(700, 700 + tasks):
        dump.instance(number, 8, 602, number + 1000)
        dump.values(number + 1000, BYTE, bytes(size))
    dump.instance(602, 9, 5000)
    dump.orders(count)
    dump.root(6)
    return dump


def batch(count: int, size: int, name: str = "shop/Batch", minutes: int = 0) -> Service:
    """Like `cache`, while a thread is in a call of the class `name`, which has a row of so many bytes."""
    dump = cache(count, minutes)
    dump.of_class(8, name)
    dump.of_class(9, "java/lang/Thread")
    dump.of_class(12, "shop/Row", fields=["text"])
    dump.thread(1, 700, [(8, "run")])
    dump.instance(700, 9)
    dump.local(1, 0, 900)
    dump.instance(900, 12, 901)
    dump.values(901, BYTE, bytes(size))
    return dump


def swapped(count: int, is_green: bool) -> Service:
    """A store has its stock in one of two fields; another static field holds the orders."""
    dump = cache(count)
    dump.of_class(8, "shop/Stock", {"STORE": 800}, fields=["blue", "green"])
    dump.values(801, BYTE, bytes(9000))
    dump.instance(800, 8, *((0, 801) if is_green else (801, 0)))
    dump.root(8)
    return dump


def emptied(orders: int, baskets: int, noise: int) -> Service:
    """Two static fields of one class have orders and baskets; another class has a page of `noise` bytes."""
    dump = Service()
    dump.of_class(6, "shop/Tables", {"ORDERS": 5000, "BASKETS": 8000})
    dump.orders(orders)
    dump.of_class(7, "shop/Basket", fields=["text"])
    dump.array(8000, 4, *range(8001, 8001 + baskets))
    for number in range(8001, 8001 + baskets):
        dump.instance(number, 7, number + 1000)
        dump.values(number + 1000, BYTE, bytes(20))
    dump.of_class(8, "shop/Pages", {"ALL": 800})
    dump.values(800, BYTE, bytes(noise))
    dump.root(6, 8)
    return dump


def noisy(count: int, noise: int, minutes: int = 0) -> Service:
    """Beside the orders, a static field holds pages of `noise` bytes, now many and now few."""
    dump = cache(count, minutes)
    dump.of_class(8, "shop/Pages", {"ALL": 800})
    dump.values(800, BYTE, bytes(noise))
    dump.root(8)
    return dump


def twofold(count: int, owner: str = "shop/Selector") -> Service:
    """Two fields of a selector, which is a root, lead to the orders: one is of its superclass `owner`."""
    dump = Service()
    dump.of_class(7, owner, fields=["keys"])
    dump.of_class(8, "shop/Polls", fields=["publicKeys"], superclass=7)
    dump.instance(600, 8, 5000, 5000)
    dump.orders(count)
    dump.root(600)
    return dump


def many_caches(count: int) -> Service:
    """Eight static fields of one class hold some orders each."""
    dump = Service()
    dump.of_class(5, "shop/Order", fields=["text"])
    tops = [5000 + 500 * number for number in range(8)]
    dump.of_class(6, "shop/Caches", {f"CACHE_{number}": top for number, top in enumerate(tops)})
    for top in tops:
        orders = range(top + 1, top + 1 + count)
        dump.array(top, 4, *orders)
        for order in orders:
            dump.instance(order, 5, order + 250)
            dump.values(order + 250, BYTE, bytes(20))
    dump.root(6)
    return dump


def baskets(count: int, fields: Sequence[str] = ("items",), minutes: int = 0) -> Service:
    """A static field has 80 baskets, each with a list of orders. One list has `count`, the others have one each. If
    `fields` has two, the second one of basket n names the object 80,000 + 2 n."""
    dump = Service(minutes)
    dump.of_class(5, "shop/Order", fields=["text"])
    dump.of_class(6, "shop/Baskets", {"ALL": 600})
    dump.of_class(7, "shop/Basket", fields=fields)
    dump.array(600, 4, *range(601, 681))
    at = 5000
    for basket in range(601, 681):
        orders = range(at + 1, at + 1 + (count if basket == 640 else 1))
        dump.instance(basket, 7, *[at, 80000 + 2 * basket][: len(fields)])
        dump.array(at, 4, *orders)
        for order in orders:
            dump.instance(order, 5, order + 20000)
            dump.values(order + 20000, BYTE, bytes(20))
        at += 1 + len(orders)
    dump.root(6)
    return dump


def of_main(name: str, minutes: int) -> Service:
    """A service whose main class is `name`."""
    dump = cache(20 + minutes, minutes)
    dump.of_class(8, name)
    dump.of_class(9, "java/lang/Thread")
    dump.thread(1, 700, [(9, "sleep"), (8, "main")])
    dump.instance(700, 9)
    return dump


def add_properties(dump: DumpWriter, command: str) -> None:
    """Writes properties as JDK 8 has them: a table of one chain, whose last entry leads to its first."""
    dump.of_class(51, "java/lang/System", {"props": 90600})
    dump.of_class(52, "java/util/Hashtable", fields=["table"])
    dump.of_class(53, "java/util/Properties", superclass=52)
    dump.of_class(54, "[Ljava/util/Hashtable$Entry;")
    dump.of_class(55, "java/util/Hashtable$Entry", fields=["intHash", "key", "value", "next"])
    dump.of_class(57, "java/lang/String", fields=["value", "coder"])
    dump.instance(90600, 53, 90601)
    dump.array(90601, 54, 0, 90610)
    pairs = [("java.vm.name", "HotSpot"), ("java.version", "1.8"), ("sun.java.command", command)]
    for number, pair in enumerate(pairs):
        entry, key, value = 90610 + number, 90700 + 4 * number, 90702 + 4 * number
        dump.instance(entry, 55, word(0), key, value, 90610 + (number + 1) % len(pairs))
        for at, text in zip((key, value), pair):
            add_text(dump, at, text)
    dump.root(51)


def add_capacity(dump: DumpWriter, capacity: int, key: str = "java.home") -> None:
    """Writes how many bytes the heap may have: what direct buffers may, with one property of the name `key`."""
    fields = [
        (dump.text("directMemory"), LONG, struct.pack(">Q", capacity)),
        (dump.text("savedProps"), OBJECT, dump.form.spell([90800])),
    ]
    dump.loaded(60, "jdk/internal/misc/VM")
    dump.heap += dump.form.named_class_dump(60, (0, 0), fields, [])
    dump.of_class(61, "java/util/HashMap", fields=["table"])
    dump.of_class(62, "[Ljava/util/HashMap$Node;")
    dump.of_class(63, "java/util/HashMap$Node", fields=["intHash", "key", "value", "next"])
    dump.of_class(64, "java/lang/String", fields=["value", "coder"])
    dump.instance(90800, 61, 90801)
    dump.array(90801, 62, 0, 90802)
    dump.instance(90802, 63, word(7), 90803, 90803, 0)
    dump.instance(90803, 64, 90804, b"\0")
    dump.values(90804, BYTE, key.encode())
    dump.root(60)


def add_text(dump: DumpWriter, number: int, text: str) -> None:
    """Writes a text with this identifier and the next one."""
    dump.instance(number, 57, number + 1, b"\0")
    dump.values(number + 1, BYTE, text.encode())


def of_customer(count: int, minutes: int = 0) -> Service:
    """Baskets as in `baskets`, each with a name. The program was started with an argument."""
    dump = baskets(count, ["items", "name"], minutes)
    add_properties(dump, "shop.Baskets --password=hush")
    for basket in range(601, 681):
        add_text(dump, 80000 + 2 * basket, f"of alice {basket}")
    return dump


def finalizers(streams: int, orders: int, minutes: int = 0) -> Service:
    """Beside a cache of orders, a chain of finalizers: only they name the streams, each with 100 bytes."""
    dump = cache(orders, minutes)
    dump.of_class(10, "java/lang/ref/Reference", fields=["referent"])
    dump.of_class(11, "java/lang/ref/FinalReference", superclass=10)
    dump.of_class(12, "java/lang/ref/Finalizer", {"unfinalized": 20000}, fields=["next", "prev"], superclass=11)
    dump.of_class(13, "shop/Stream", fields=["buffer"])
    for number in range(streams):
        finalizer, stream = 20000 + number, 30000 + number
        dump.instance(finalizer, 12, finalizer + 1 if number + 1 < streams else 0, 0, stream)
        dump.instance(stream, 13, stream + 10000)
        dump.values(stream + 10000, BYTE, bytes(100))
    dump.root(12)
    return dump


def buffers(count: int, orders: int, minutes: int = 0) -> bytes:
    """Returns a dump with `count` direct buffers of 40 bytes each in a pool, beside a cache of orders."""
    dump = cache(orders, minutes)
    dump.of_class(10, "java/nio/Buffer", fields=["int_____"])
    dump.of_class(11, "java/nio/DirectByteBuffer", fields=["att"], superclass=10)
    dump.of_class(12, "shop/Pool", {"BUFFERS": 20000})
    dump.array(20000, 4, *range(20001, 20001 + count))
    for buffer in range(20001, 20001 + count):
        dump.instance(buffer, 11, 0, word(40))
    dump.root(12)
    return dump.bytes().replace(b"int_____", b"capacity")


def reporters(count: int, minutes: int = 0, rows: int = 0, has_lists: bool = False) -> Service:
    """Each of `count` threads `report-n` has 100 bytes in a local variable of its method; the last one has so many rows
    of 100 bytes there, if there are any. `has_lists`: the variables lead to lists, which have the rows."""
    dump = Service(minutes)
    dump.of_class(6, "java/lang/Thread", fields=["name"])
    dump.of_class(8, "shop/Reporter")
    dump.of_class(9, "java/util/ArrayList", fields=["elementData"])
    dump.of_class(57, "java/lang/String", fields=["value", "coder"])
    for number in range(1, count + 1):
        dump.thread(number, 70000 + number, [(8, "run")])
        dump.instance(70000 + number, 6, 80000 + 2 * number)
        add_text(dump, 80000 + 2 * number, f"report-{number}")
        every = range(76000, 76000 + rows) if number == count else ()
        for row in every or [75000 + number]:
            dump.values(row, BYTE, bytes(100))
        if every or has_lists:
            dump.array(77000 + number, 4, *(every or [75000 + number]))
        if has_lists:
            dump.instance(78000 + number, 9, 77000 + number)
        dump.local(number, 0, 78000 + number if has_lists else 77000 + number if every else 75000 + number)
    return dump


def library_map(count: int) -> Service:
    """A static field has a store, whose field is a map of a library: that has the orders, and inherits from a map of
    the JDK's."""
    dump = Service()
    dump.of_class(6, "shop/Service", {"STORE": 600})
    dump.of_class(7, "shop/Store", fields=["map"])
    dump.of_class(8, "java/util/AbstractMap")
    dump.of_class(9, "lib/LargeMap", fields=["segments"], superclass=8)
    dump.instance(600, 7, 601)
    dump.instance(601, 9, 5000)
    dump.orders(count)
    dump.root(6)
    return dump


def referents(count: int) -> Service:
    """There are 30 references more than orders, and each is a root. Of `count` of them the referent is an order."""
    dump = Service()
    dump.orders(count, name="shop/Page")
    dump.of_class(6, "lib/Reference", fields=["referent"])
    for number in range(600, 630 + count):
        dump.instance(number, 6, number - 600 + 5001 if number < 600 + count else 0)
        dump.root(number)
    return dump


def generated(count: int, size: int = 100) -> Service:
    """A loader has `count` classes with names as CGLIB makes them, whose static field leads to `size` bytes each."""
    dump = Service()
    for number in range(count):
        name = f"shop/View$$EnhancerByCGLIB$${1_000_003 * (number + 1):x}"
        dump.of_class(10_000 + number, name, {"CALLBACKS": 20_000 + number})
        dump.values(20_000 + number, BYTE, bytes(size))
        dump.root(10_000 + number)
    return dump
