"""Small dumps in which it is known what holds the objects of a class."""

from tests.support.dump_writer import BYTE, DumpWriter, word


def shop(id_size: int = 8) -> DumpWriter:
    """A static field holds a cache, whose array holds 25 orders; a thread holds 5 of these too. Of two more orders,
    only a weak reference holds one, and nothing holds the other."""
    dump = DumpWriter(id_size)
    orders = list(range(300, 320))
    dump.of_class(1, "Shop", {"<init_lock>": 0, "CACHE": 200, "NOTHING": 0}, loader=250)
    dump.of_class(2, "Cache", fields=["table", "unused"], loader=250)
    dump.of_class(3, "[LOrder;")
    dump.of_class(4, "Order", loader=250)
    dump.of_class(5, "java/lang/Thread", fields=["intPriority", "orders"])
    dump.of_class(6, "java/lang/ref/Reference", fields=["referent"])
    dump.of_class(7, "java/lang/ref/WeakReference", superclass=6)
    dump.of_class(8, "Loader")
    dump.of_class(9, "Ghost")
    dump.instance(200, 2, 201, 0)
    dump.array(201, 3, *orders, *range(400, 405))
    for order in [*orders, *range(400, 405), 500, 501]:
        dump.instance(order, 4)
    dump.instance(202, 5, word(5), 203)
    dump.array(203, 3, *range(400, 405))
    dump.instance(204, 7, 500)
    dump.instance(205, 7, 300)
    dump.instance(250, 8)
    dump.root(1, 202, 204, 205)
    return dump


def weak() -> DumpWriter:
    """Only a weak reference holds an order; another weak reference names no object."""
    dump = DumpWriter()
    dump.of_class(1, "java/lang/ref/Reference", fields=["referent"])
    dump.of_class(2, "java/lang/ref/WeakReference", superclass=1)
    dump.of_class(3, "Order")
    dump.instance(200, 2, 300)
    dump.instance(201, 2, 0)
    dump.instance(300, 3)
    dump.root(200, 201)
    return dump


def journal() -> DumpWriter:
    """Two static fields name one array of 10 events; a third names one of these events; the others name no event."""
    dump = DumpWriter()
    dump.of_class(1, "Journal", {"EVENTS": 200, "LAST": 300}, loader=250)
    dump.of_class(2, "Screen", {"SHOWN": 200, "COLOUR": 251}, loader=250)
    dump.of_class(3, "[LEvent;")
    dump.of_class(4, "Event")
    dump.of_class(5, "Loader")
    dump.of_class(6, "java/Other", {"A": 251, "B": 252})
    dump.array(200, 3, *range(300, 310))
    for event in range(300, 310):
        dump.instance(event, 4)
    for number in (250, 251, 252):
        dump.instance(number, 5)
    dump.root(1, 2, 6)
    return dump


def odd_names() -> DumpWriter:
    """Hidden classes of one origin, two classes of one name, and names that a report spells otherwise."""
    dump = DumpWriter()
    numbers = list(range(10, 16))
    names = ["Bus$$Lambda$1+0x0a", "Bus$$Lambda$2+0x0b", "Twin", "Twin", "caf\u00e9 au lait", "a.b\\c"]
    statics = {f"f{number}": number * 10 for number in numbers}
    dump.of_class(1, "Bus", {**statics, "g": 400})
    for number, name in zip(numbers, names):
        dump.of_class(number, name, fields=["next"])
        dump.instance(number * 10, number, number * 10 + 1)
        dump.instance(number * 10 + 1, number, 0)
    dump.of_class(2, b"Heir", superclass=12)
    dump.of_class(4, "java/Other", {"PARTS": 403})
    dump.of_class(5, "[Ljava/Part;")
    dump.of_class(6, "java/Part")
    dump.instance(400, 2, 401)
    dump.instance(401, 2, 0)
    dump.instance(402, 3)
    dump.array(403, 5, 404, 405)
    dump.instance(404, 6)
    dump.instance(405, 6)
    dump.of_class(3, None, {"MINE": 402})
    dump.root(1, 3, 4)
    return dump


def late_classes() -> DumpWriter:
    """Objects, arrays of every kind, roots of every kind, and only then the class dumps. An unloaded class has none."""
    dump = DumpWriter()
    dump.loaded(99, "Unloaded")
    dump.instance(200, 2, 201)
    dump.instance(201, 2, 0)
    dump.array(202, 3, 200)
    for kind, size in ((4, 1), (5, 2), (6, 4), (7, 8), (8, 1), (9, 2), (10, 4), (11, 8)):
        dump.heap += b"\x23" + dump.form.spell([300 + kind]) + word(0) + word(3) + bytes([kind]) + bytes(3 * size)
    for tag, more in ((1, 8), (2, 8), (3, 8), (4, 4), (5, 0), (6, 4), (7, 0), (8, 8)):
        dump.heap += dump.form.root(tag, 1) + bytes(more)
    dump.of_class(3, "[LNode;")
    dump.of_class(2, "Node", fields=["next"])
    dump.of_class(1, "List", {"HEAD": 202})
    return dump


def threads() -> DumpWriter:
    """Two threads of the same method have a message each in a local variable; the thread "http-0", whose name is in a
    byte array, has five more in a method of its own, and "http-ü" is in UTF-16. Another message is a root."""
    dump = DumpWriter()
    dump.of_class(1, "java/lang/Thread", fields=["intPriority", "name", "target"])
    dump.of_class(2, "java/lang/String", fields=["value", "coder"])
    dump.of_class(3, "Message")
    dump.of_class(4, "com/shop/Worker")
    dump.of_class(5, "com/shop/Server")
    dump.of_class(6, "[LMessage;")
    names = ["http-0".encode("latin-1"), "http-ü".encode("utf-16-le")]
    for serial, name in enumerate(names, 1):
        methods = [(4, "take"), (5, "serve")] if serial == 1 else [(4, "take")]
        dump.thread(serial, 200 + serial, methods)
        dump.local(serial, 0, 300 + serial)
    dump.local(1, 1, 400)
    for serial, name in enumerate(names, 1):
        dump.instance(200 + serial, 1, word(5), 210 + serial, 0)
        dump.instance(210 + serial, 2, 220 + serial, bytes([serial - 1]))
        dump.values(220 + serial, BYTE, name)
    dump.array(400, 6, *range(401, 406))
    for message in (301, 302, *range(401, 407)):
        dump.instance(message, 3)
    dump.root(406)
    return dump


def arrays() -> DumpWriter:
    """A catalog of 90 arrays of 10 bytes, and an upload of 10 arrays of 1,000 bytes."""
    dump = DumpWriter()
    dump.of_class(1, "Catalog", {"ALL": 200})
    dump.of_class(2, "Upload", {"CHUNKS": 201})
    dump.of_class(3, "[[B")
    dump.array(200, 3, *range(300, 390))
    dump.array(201, 3, *range(400, 410))
    for number in range(300, 390):
        dump.values(number, BYTE, bytes(10))
    for number in range(400, 410):
        dump.values(number, BYTE, bytes(1000))
    dump.root(1, 2)
    return dump


DUMPS = {
    "shop": shop(),
    "shop4": shop(4),
    "weak": weak(),
    "journal": journal(),
    "odd": odd_names(),
    "late": late_classes(),
    "threads": threads(),
    "arrays": arrays(),
    "none": DumpWriter(),
}
