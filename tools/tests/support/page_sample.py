"""What the pages show, for their tests: a leak and one dump as they happen, and changes of them."""

import dataclasses
from typing import Any, Dict, List, Optional, Sequence, Tuple

from heap_tools import page

NOON = 1_795_780_800_000
MINUTE = 60_000
MEGABYTE = 1_000_000
OWN, MAP = "com/acme/shop/metrics/MetricsService", "java/util/concurrent/ConcurrentHashMap"
#: How much more is reachable in the last dump of the sample.
GROWTH = page.Amount(602_801, 17_076_437)


def amounts(*pairs: Tuple[int, int]) -> List[page.Amount]:
    """Returns pairs of objects and bytes as amounts."""
    return [page.Amount(*pair) for pair in pairs]


def dump(number: int, reachable: Tuple[int, int], unreachable: Tuple[int, int], unresolved: int = 12) -> page.DumpEntry:
    """Returns a dump that was taken `number` times six minutes after noon."""
    file, time = f"/tmp/shop-{number}.hprof", NOON + 6 * MINUTE * number
    size = 61_200_441 + 9_000_000 * number
    return page.DumpEntry(file, size, time, page.Amount(*reachable), page.Amount(*unreachable), unresolved)


def making(
    command: str = "leaks --html leak.html /tmp/shop-0.hprof /tmp/shop-1.hprof /tmp/shop-2.hprof",
) -> page.Making:
    """Returns how a page was made."""
    versions = [("leaks", "0.1.0"), ("heapmark", "0.1.0"), ("Python", "3.11.7")]
    return page.Making(command, 31, 14.2, NOON + 20 * MINUTE, versions)


def grown(name: str, *pairs: Tuple[int, int]) -> page.GrownClass:
    """Returns a class that grew, with its objects and bytes in each dump."""
    return page.GrownClass(name, amounts(*pairs))


def held(objects: int, size: int, percent: float) -> page.HeldShare:
    """Returns what a holder holds in one dump."""
    return page.HeldShare(page.Amount(objects, size), percent)


def field(text: str) -> page.FieldEntry:
    """Returns a field by its kind and its name: a field of instances has only its name."""
    kind, _, name = text.partition(" ")
    is_named = kind in (page.STATIC, page.LOCAL, page.THREAD, page.THREADS)
    return page.FieldEntry(kind, name) if is_named else page.FieldEntry(page.FIELD, text)


def step(text: str, share: Optional[page.HeldShare] = None) -> page.StepEntry:
    """Returns a step of a path that is one field."""
    return page.StepEntry([field(text)], share)


def holder(text: str, instances: int, before: page.HeldShare, after: page.HeldShare, *above: str) -> page.HolderEntry:
    """Returns a holder, with its share of the growth of the sample."""
    share = 100 * (after.amount.bytes - before.amount.bytes) / GROWTH.bytes
    return page.HolderEntry([field(text)], instances, before, after, share, [step(each) for each in above])


def share(text: str, classes: Dict[str, Tuple[int, int]], *parts: Tuple[str, int]) -> page.ShareEntry:
    """Returns what a field holds, class by class, and in it for each of `parts` so many bytes in 100 arrays."""
    within = [page.ShareEntry([field(name)], {"byte[]": page.Amount(100, size)}) for name, size in parts]
    return page.ShareEntry([field(text)], {name: page.Amount(*amount) for name, amount in classes.items()}, within)


def classes() -> Dict[str, page.Amount]:
    """Returns the classes of a report, with a catalog and a leak."""
    kinds = [
        ("byte[]", 301_442, 21_033_107),
        ("java/lang/String", 298_117, 7_154_808),
        ("[Ljava/lang/Object;", 60_733, 9_335_557),
        ("com/acme/shop/catalog/Product", 60_000, 4_320_000),
        ("java/util/HashMap$Node", 121_733, 3_408_524),
        ("com/acme/shop/metrics/MetricsService$Meter", 74_967, 3_298_548),
        ("java/util/concurrent/ConcurrentHashMap$Node", 79_233, 2_218_524),
        ("[Ljava/util/HashMap$Node;", 4_012, 1_912_096),
        ("java/util/ArrayList", 60_944, 1_462_656),
        ("java/util/concurrent/atomic/LongAdder", 74_967, 1_199_472),
        ("com/acme/shop/catalog/Price", 60_000, 960_000),
        ("java/lang/Long", 75_223, 601_784),
        ("java/math/BigDecimal", 12_331, 394_592),
        ("int[]", 8_120, 322_104),
        ("io/netty/buffer/PoolSubpage", 2_048, 180_224),
        ("io/netty/util/Recycler$DefaultHandle", 3_100, 148_800),
        ("Main$Warmup", 12, 400),
        ("<class>", 3_402, 120_110),
    ]
    many = [(f"jdk/internal/module/Part{number}", 100 - number, 4_000 - 30 * number) for number in range(60)]
    more = [(f"org/slf4j/helpers/Helper{number}", 10, 900 - number) for number in range(30)]
    return {name: page.Amount(objects, size) for name, objects, size in kinds + many + more}


def many_packages() -> Dict[str, page.Amount]:
    """Returns the classes of a report, with more packages of the program and of the JDK than have colours."""
    own = {f"com/acme/part{number}/Kind": page.Amount(10, 100_000) for number in range(9)}
    jdk = {f"java/util/part{number}/Kind": page.Amount(10, 100_000) for number in range(6)}
    return {**own, **jdk}


def grown_classes() -> List[page.GrownClass]:
    """Returns the classes that grew."""
    return [
        grown(f"{OWN}$Meter", (22_010, 968_440), (48_300, 2_125_200), (74_967, 3_298_548)),
        grown("byte[]", (150_010, 14_300_220), (226_113, 17_702_010), (301_442, 21_033_107)),
        grown("java/lang/String", (147_002, 3_528_048), (222_540, 5_340_960), (298_117, 7_154_808)),
        grown(f"{MAP}$Node", (26_300, 736_400), (52_803, 1_478_484), (79_233, 2_218_524)),
        grown("java/util/concurrent/atomic/LongAdder", (22_010, 352_160), (48_300, 772_800), (74_967, 1_199_472)),
        grown("java/lang/Long", (22_266, 178_128), (48_556, 388_448), (75_223, 601_784)),
        grown("java/util/ArrayList", (60_920, 1_462_080), (60_980, 1_463_520), (60_944, 1_462_656)),
    ]


def holders() -> List[page.HolderEntry]:
    """Returns what holds the growth."""
    poll = held(11, 4_020, 0.01), held(9_400, 8_300_120, 14.24)
    queue = "java/util/concurrent/ScheduledThreadPoolExecutor$DelayedWorkQueue.queue"
    above = "static com/acme/shop/timeout/TimeoutService.TIMER", "java/util/concurrent/ThreadPoolExecutor.workQueue"
    meters = f"static {OWN}.METERS"
    return [
        holder(meters, 1, held(88_104, 4_011_220, 9.73), held(299_904, 20_425_100, 35.04)),
        holder(f"{MAP}.table", 44, held(88_220, 4_031_004, 9.78), held(300_001, 20_440_216, 35.07), meters),
        holder("local com/acme/shop/Poller.run", 3, *poll),
        holder("thread http-nio-8080-exec-1", 1, *poll),
        holder(queue, 1, held(0, 0, 0.0), held(8_000, 8_200_000, 14.07), *above),
    ]


def contents() -> List[page.GrownClass]:
    """Returns the classes of what the first holder holds."""
    return [
        grown("byte[]", (22_030, 1_100_000), (74_970, 11_428_004)),
        grown(f"{OWN}$Meter", (22_010, 968_440), (74_967, 3_298_548)),
        grown(f"{MAP}$Node", (22_031, 616_308), (74_979, 2_099_412)),
        grown("java/lang/String", (22_012, 528_240), (74_967, 1_799_208)),
        grown("[Ljava/util/HashMap$Node;", (21, 798_232), (21, 1_799_928)),
    ]


def shares() -> List[page.ShareEntry]:
    """Returns parts of the last heap: what the first holder holds, with the arrays of its texts by themselves, and what
    two others do."""
    held_now = {it.name: tuple(it.amounts[-1]) for it in contents()}
    texts = page.ShareEntry([field("java/lang/String.value")], {"byte[]": page.Amount(*held_now.pop("byte[]"))})
    classes_now = {name: page.Amount(*amount) for name, amount in held_now.items()}
    return [
        page.ShareEntry([field(f"static {OWN}.METERS")], classes_now, [texts]),
        share("static com/acme/shop/catalog/Catalog.ALL", {"com/acme/shop/catalog/Product": (60_000, 4_320_000)}),
        share("thread http-nio-8080-exec-1", {"byte[]": (12, 1_200_000)}),
    ]


def leak(**changes: Any) -> page.Leak:
    """Returns a leak over three dumps, as `leaks` finds it, with `changes`."""
    found = page.Leak(
        dumps=[
            dump(0, (702_113, 41_208_334), (1_201, 52_000)),
            dump(1, (1_001_702, 49_700_118), (1_310, 56_112)),
            dump(2, (1_304_914, 58_284_771), (1_222, 53_004)),
        ],
        grown=grown_classes(),
        holders=holders(),
        last=classes(),
        growth=GROWTH,
        omitted=["Stacks of virtual threads that wait: JDK 21 omits them. What only they hold is unreachable here."],
        making=making(),
        program=page.ProgramEntry("com.acme.shop.Application", 4711, "OpenJDK 64-Bit Server VM, Java 21.0.4"),
        next_steps=[
            page.NextStep("All that it retains, class by class", f"held /tmp/shop-2.hprof 'static {OWN}.METERS'"),
            page.NextStep(f"What holds objects of {OWN}$Meter", f"holders /tmp/shop-2.hprof '{OWN}$Meter'"),
        ],
    )
    return dataclasses.replace(found, **changes)


def bare_leak(**changes: Any) -> page.Leak:
    """Returns the sample without what may be missing, and with `changes`."""
    nothing: Dict[str, Any] = {"grown": [], "holders": [], "last": {}, "omitted": [], "next_steps": []}
    return leak(**{**nothing, "program": page.ProgramEntry(), **changes})


def full_leak(**changes: Any) -> page.Leak:
    """Returns the sample with all that a page can have: objects, threads, notes, and much that is unreachable."""
    first, middle, last = leak().dumps
    objects = [
        page.ObjectEntry(1, MAP, [page.NameEntry("the map's key", '"meters of /checkout"')], 12_300_110, 60.2),
        page.ObjectEntry(2, f"[L{MAP}$Node;", [], 1_200, 0.02),
    ]
    threads = [
        page.ThreadGroupEntry("report-*", 1, 284, ["java/lang/Object.wait", "com/acme/shop/Reporter.run"]),
        page.ThreadGroupEntry("http-nio-8080-exec-*", 10, 9, []),
    ]
    every: Dict[str, Any] = {
        "dumps": [first, middle, dataclasses.replace(last, unreachable=page.Amount(410_204, 14_500_118))],
        "objects": objects,
        "threads": threads,
        "notes": ["1,204,332 bytes more are held by weak or final references alone."],
        "contents": contents(),
        "shares": shares(),
    }
    return leak(**{**every, **changes})


def leak_from(first: Tuple[int, int, int], last: Tuple[int, int, int]) -> page.Leak:
    """Returns a leak between two dumps: in each so many megabytes are reachable, held, and unreachable."""
    before, _, after = leak().dumps
    dumps = [
        dataclasses.replace(
            each, reachable=page.Amount(1, MEGABYTE * reachable), unreachable=page.Amount(1, MEGABYTE * unreachable)
        )
        for each, (reachable, _, unreachable) in ((before, first), (after, last))
    ]
    ends = [held(1, MEGABYTE * size, 1.0) for _, size, _ in (first, last)]
    return leak(dumps=dumps, holders=[holder("static a/B.c", 1, ends[0], ends[1])])


def uneven(times: Sequence[int]) -> page.Leak:
    """Returns a leak with a dump at each of `times`, in minutes, in which all grows as the time does."""
    series = [(1_000 * minute, 10_000 * minute) for minute in times]
    dumps = [dump(number, amount, (0, 0)) for number, amount in enumerate(series)]
    dumps = [dataclasses.replace(each, time=NOON + MINUTE * minute) for each, minute in zip(dumps, times)]
    return leak(dumps=dumps, grown=[grown("com/acme/Steady", *series)])


def one_dump(**changes: Any) -> page.OneDump:
    """Returns one dump of a program that ran out of memory: the inbox of one tenant of 500 is full."""
    tenants = "static com/acme/mail/Tenants.BY_NAME"
    whole = page.HeldShare(page.Amount(811_204, 40_311_880), 81.2)
    inbox = page.HeldShare(page.Amount(799_400, 39_102_440), 78.8)
    found = page.OneDump(
        dump=dump(1, (1_002_300, 49_624_118), (120_441, 6_112_800)),
        suspects=[
            page.SuspectEntry([field(tenants)], 1, whole, []),
            page.SuspectEntry(
                [field("com/acme/mail/Tenant.inbox")],
                500,
                inbox,
                [step(tenants, whole), step(f"{MAP}.table", whole)],
                elements="40,000 elements",
            ),
            page.SuspectEntry([field("local com/acme/mail/Import.run")], 1, held(20_114, 10_044_190, 20.2), []),
        ],
        classes=classes(),
        omitted=[],
        making=making("leaks --html heap.html /tmp/mail.hprof"),
        program=page.ProgramEntry("mail-server.jar", 4711, "OpenJDK 64-Bit Server VM, Java 21.0.4"),
        next_steps=[page.NextStep("All that it retains, class by class", f"held /tmp/mail.hprof '{tenants}'")],
        objects=[
            page.ObjectEntry(
                2, "com/acme/mail/Tenant", [page.NameEntry("its field name", '"tenant-317"')], 37_400_120, 95.6
            )
        ],
        contents=[
            page.Row("byte[]", page.Amount(301_442, 21_033_107)),
            page.Row("com/acme/mail/Message", page.Amount(98_117, 7_154_808)),
            page.Row("[Ljava/lang/Object;", page.Amount(60_733, 5_335_557)),
        ],
        ran_out=[
            page.RanOutEntry(
                "http-nio-8080-exec-7",
                [
                    "java/util/Arrays.copyOf",
                    "java/util/ArrayList.grow",
                    "com/acme/mail/Inbox.add",
                    "com/acme/mail/Server.run",
                ],
                2,
            )
        ],
        capacity=60_000_000,
        shares=[share(tenants, {"byte[]": (301_442, 21_033_107), "[Ljava/lang/Object;": (60_733, 5_335_557)})],
    )
    return dataclasses.replace(found, **changes)


def bare_dump(**changes: Any) -> page.OneDump:
    """Returns one dump without what may be missing, and with `changes`."""
    nothing: Dict[str, Any] = {"suspects": [], "classes": {}, "objects": [], "contents": [], "ran_out": []}
    nothing.update({"next_steps": [], "capacity": None, "program": page.ProgramEntry(), "shares": []})
    return one_dump(**{**nothing, **changes})


def sizes(**changes: Any) -> page.Sizes:
    """Returns the sizes of one dump, as the heap has them."""
    unreachable = {name: page.Amount(amount.objects // 9, amount.bytes // 9) for name, amount in classes().items()}
    found = page.Sizes(
        dump=dump(1, (1_002_300, 49_624_118), (120_441, 6_112_800)),
        classes=classes(),
        unreachable=unreachable,
        omitted=page.Amount(900, 117_152),
        has_heap_bytes=True,
        making=making("sizes --html heap.html /tmp/mail.hprof"),
        program=page.ProgramEntry("mail-server.jar", 4711, "OpenJDK 64-Bit Server VM, Java 21.0.4"),
        notes=["Bytes are those of the heap: objects begin at each 8th byte."],
    )
    return dataclasses.replace(found, **changes)
