"""Names as a hostile dump may have them, or the name of a file, and leaks all of whose names are hostile."""

from typing import List

from heap_tools import page
from tests.support import page_sample

SCRIPT = "<script>alert(1)</script>"
HOSTILE = [
    SCRIPT,
    '"><img src=x onerror=alert(1)>',
    "'onmouseover='alert(1)",
    "</style></title></svg><script>alert(2)</script>",
    "&lt;b&gt; &amp; & &#x3c;",
    "$name ${name} $$",
    "{{7*7}} %s {0} <!-- ]]> <![CDATA[",
    "java/script:alert(1)",
    "com/acme/" + "Long" * 2500,
    "/" * 10_000,
    '"' * 10_000,
    "a\\x00b\\x1b[31m\\xe2\\x80\\xae",
]
#: Names of classes that are in reports as `shown` spells them.
HOSTILE_CLASSES = [*HOSTILE[1:10], "a\x00b\x1b[31m", "\u202eltr\u2066", "[Lno end", "a" * 10_000 + "b"]
#: Names with characters that reports escape, but names of files and threads may have.
ODD = [
    "\u202eltr\u2066",
    "\x00\x07\x1b[31m\r\n\t",
    "\udcff\udc80",
    "\ud800",
    "\ufeff\u200b",
    "\u05d0\u05d1\u05d2",
    "\U0001f4a9",
    "",
]
#: How some of these are shown.
ESCAPES = [
    "\\xe2\\x80\\xaeltr\\xe2\\x81\\xa6",
    "\\x00\\x07\\x1b[31m\\x0d\\x0a\\x09",
    "\\xff\\x80",
    "\\xed\\xa0\\x80",
]
KINDS = [page.STATIC, page.FIELD, page.LOCAL, page.THREAD, page.THREADS]


def hostile_fields(names: List[str]) -> List[page.FieldEntry]:
    """Returns fields with these names, of all kinds in turn."""
    return [page.FieldEntry(KINDS[number % len(KINDS)], name) for number, name in enumerate(names)]


def hostile_paths(names: List[str]) -> List[List[page.StepEntry]]:
    """Returns paths that have each of the names as a step, a few of them in each."""
    steps = [page.StepEntry([field]) for field in hostile_fields(names)]
    return [[page.StepEntry(hostile_fields(names)), *steps[at : at + 2]] for at in range(0, len(steps), 2)]


def hostile_objects(names: List[str]) -> List[page.ObjectEntry]:
    """Returns objects with these names."""
    return [
        page.ObjectEntry(number, name, [page.NameEntry(name, name), page.NameEntry(name)], 10**18, 1e6)
        for number, name in enumerate(names)
    ]


def hostile_shares(names: List[str]) -> List[page.ShareEntry]:
    """Returns parts of a heap that have these names for fields and classes, with parts of their own."""
    fields, classes = hostile_fields(names), {name: page.Amount(10**5, 3 * 10**6) for name in names[:3]}
    parts = [page.ShareEntry([field], classes) for field in fields[1:3]]
    return [page.ShareEntry(fields, classes, parts), page.ShareEntry(fields[:1], classes, parts)]


def hostile_leak(names: List[str] = HOSTILE, odd: List[str] = ODD) -> page.Leak:
    """Returns a leak all of whose names are hostile."""
    first, last = page_sample.amounts((1, 1), (10**18, 10**18))
    share, every = page.HeldShare(last, 100.0), odd + names
    dumps = [page.DumpEntry(name, None, None, first, last, 0) for name in every]
    paths = hostile_paths(every)
    holders = [[field] for field in hostile_fields(every)] + [hostile_fields(every)]
    return page.Leak(
        dumps=dumps,
        grown=[page.GrownClass(name, [first] * (len(dumps) - 1) + [last]) for name in names * 5],
        holders=[
            page.HolderEntry(fields, 1, share, share, 1e6, paths[number % len(paths)])
            for number, fields in enumerate(holders * 2)
        ],
        last={f"{name}{number}": page.Amount(10**6, 10**6 - number) for number, name in enumerate(names * 20)},
        growth=last,
        omitted=every * 3,
        making=page.Making(" ".join(every), 1, 1.0, 2**63, [(name, name) for name in every * 3]),
        of_class=names[0],
        program=page.ProgramEntry(names[0], 2**63, names[-1]),
        next_steps=[page.NextStep(name, name) for name in every],
        objects=hostile_objects(every),
        threads=[page.ThreadGroupEntry(name, 0, 2**63, [name, *every]) for name in every],
        notes=every * 3,
        weak=odd[0],
        layout=odd[0],
        contents=[page.GrownClass(name, [first, last]) for name in every],
        shares=hostile_shares(names),
    )


def hostile_one_dump(names: List[str] = HOSTILE, odd: List[str] = ODD) -> page.OneDump:
    """Returns one dump all of whose names are hostile."""
    leak = hostile_leak(names, odd)
    every, share = odd + names, page.HeldShare(page.Amount(10**18, 10**18), 100.0)
    return page.OneDump(
        dump=leak.dumps[0],
        suspects=[
            page.SuspectEntry(it.fields, 2**63, share, [page.StepEntry(step.fields, share) for step in it.above])
            for it in leak.holders
        ],
        classes=leak.last,
        omitted=leak.omitted,
        making=leak.making,
        of_class=names[0],
        program=leak.program,
        next_steps=leak.next_steps,
        objects=hostile_objects(every)[1:],
        contents=[page.Row(name, share.amount) for name in every],
        ran_out=[page.RanOutEntry(name, [*every, name], len(every)) for name in every],
        notes=leak.notes,
        weak=odd[0],
        layout=odd[0],
        capacity=2**63,
        shares=leak.shares,
    )
