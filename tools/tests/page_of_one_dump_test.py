"""The page of one dump as HTML: its words, its form, and that names are only text in it."""

import dataclasses
import re
import unittest

from heap_tools import page
from tests.support import page_sample
from tests.support.hostile_names import ESCAPES, HOSTILE, hostile_one_dump
from tests.support.html_of_page import HtmlOfPage
from tests.support.outline import Outline
from tests.support.page_sample import bare_dump, one_dump

#: What only two dumps can say.
OF_TWO = re.compile(r"(?<![.\w])(grew|grow|grown|growth|gained|leak|leaked|up from|first dump|last dump|dumps, the)\b")


class PageOfOneTest(HtmlOfPage):
    """The page of one dump as HTML."""

    def top_of(self, it: page.OneDump) -> str:
        """Returns the text above the sections."""
        return self.outline(it).text().partition("How full the heap is")[0]

    def test_texts(self) -> None:
        """What the page says of the sample: how full the heap is, what holds it, which object, and what is in it."""
        self.check_texts(
            one_dump(),
            "Static field com/acme/mail/Tenants.BY_NAME holds 40.3 MB, 81% of the reachable heap",
            "The heap has 49.6 MB in 1,002,300 objects that are reachable, and 6.1 MB that are not.",
            'Thread "http-nio-8080-exec-7" ran out of memory in com/acme/mail/Inbox.add.',
            "The heap may have 60.0 MB with headers and padding of objects, which are not counted here",
            "40.3 MB held by com/acme/mail/Tenants.BY_NAME 9.3 MB other reachable bytes 6.1 MB unreachable bytes",
            "What line 1 holds",
            "com/acme/mail/Message 98,117 7.2 MB 18%",
            "java/lang/Object[] 60,733 5.3 MB 13%",
            "leaks FIRST SECOND",
            "The counts of each single report of heapmark are proved exact",
        )

    def test_path(self) -> None:
        """The path is drawn from the root through the first line down to the object, each step with what it holds."""
        steps = re.findall(r'<li class="(step|main|object|gap)">(.*?)</li>', page.html_of(one_dump()), re.S)
        texts = [(kind, Outline(html).text()) for kind, html in steps]
        self.assertEqual(
            [(kind, " ".join(text.replace("\u00a0", " ").split())) for kind, text in texts],
            [
                ("main", "static field com/acme/mail/Tenants.BY_NAME 40.3 MB 81%"),
                ("step", "field java/util/concurrent/ConcurrentHashMap.table 40.3 MB 81%"),
                ("step", "field com/acme/mail/Tenant.inbox 39.1 MB 79%"),
                ("object", '1 of 500 com/acme/mail/Tenant its field name "tenant-317"'),
            ],
        )

    def test_roots_of_a_path(self) -> None:
        """A path that begins at a field is drawn from the nearest root on, and with how many more there are."""
        first = one_dump().suspects[0]
        for kind, name, others, wanted in (
            (page.THREAD, "HTTP-Dispatcher", " and 8 more", 'thread "HTTP-Dispatcher" and 8 more field a/B.c'),
            (page.MACHINE_ROOT, "", " and 1 more", "root of the virtual machine and 1 more field a/B.c"),
        ):
            root = page.StepEntry([page.FieldEntry(kind, name)], others=others)
            above = [root, page_sample.step("a/B.c")]
            self.check_texts(one_dump(suspects=[dataclasses.replace(first, above=above)], objects=[]), wanted)

    def test_share_of_object(self) -> None:
        """At the end of the path is what the object holds of the heap, which is less than it holds of the line."""
        name = '1 of 500 com/acme/mail/Tenant its field name "tenant-317"'
        self.check_texts(one_dump(), f"{name} 37.4 MB 75%")  # 95.6% of 78.8%
        it = one_dump()
        half = dataclasses.replace(it.suspects[1], held=dataclasses.replace(it.suspects[1].held, percent=50.0))
        all_of_it = dataclasses.replace(it.objects[0], percent=100.0)
        self.check_texts(one_dump(suspects=[it.suspects[0], half], objects=[all_of_it]), f"{name} 37.4 MB 50%")

    def test_paths_of_other_lines(self) -> None:
        """An object of a line beside the first one is no end of the path, but in the table of objects."""
        it = one_dump()
        beside = dataclasses.replace(it.suspects[1], above=[page_sample.step("static a/B.c")])
        html = page.html_of(one_dump(suspects=[it.suspects[0], beside]))
        self.assertNotIn('<li class="object">', html)
        self.assertIn("Which objects", html)
        self.assertNotIn("Which objects", page.html_of(it))
        first = dataclasses.replace(it.objects[0], line=1)
        html = page.html_of(one_dump(objects=[first]))
        self.assertEqual(html.count('<li class="object">'), 1)
        self.assertIn("1 of 1<", html)
        self.assertNotIn('<li class="object">', page.html_of(one_dump(objects=[dataclasses.replace(first, line=9)])))

    def test_long_paths(self) -> None:
        """Of a long path the first steps and the last are drawn, and it is said how many are between."""
        first = one_dump().suspects[0]
        above = [page_sample.step(f"a/B.c{number}") for number in range(9)]
        it = one_dump(suspects=[dataclasses.replace(first, above=above)], objects=[])
        self.check_texts(it, "field a/B.c4 3 more field a/B.c8")

    def test_it_never_grew(self) -> None:
        """One dump shows what holds, never what grew; the first of that is said, and how to find the other."""
        text = self.outline(one_dump(making=page_sample.making("heap"))).text()
        said = text.replace("One dump shows what holds the heap, not what grows", "")
        self.assertEqual(OF_TWO.findall(said), [])
        self.assertIn("One dump shows what holds the heap, not what grows", self.top_of(one_dump()))

    def test_fullness(self) -> None:
        """The parts of the bar are as long as their bytes, and all of what the heap may have if that is known, and
        bytes are those of the heap."""
        it = one_dump(layout="Bytes are those of the heap.")
        self.check_texts(it, "In use 93% of 60.0 MB that the heap may have", "4.3 MB free")
        for given, wanted in [
            (it, [("held", 672), ("reachable", 155), ("unreachable", 102), ("free", 71)]),
            (one_dump(), [("held", 723), ("reachable", 167), ("unreachable", 110)]),
            (one_dump(capacity=None), [("held", 723), ("reachable", 167), ("unreachable", 110)]),
            (one_dump(capacity=1, layout="x"), [("held", 723), ("reachable", 167), ("unreachable", 110)]),
            (one_dump(suspects=[], objects=[], capacity=None), [("reachable", 890), ("unreachable", 110)]),
        ]:
            found = re.findall(r'<rect class="(\w+)" x="[\d.]+" width="([\d.]+)" height="40"/>', page.html_of(given))
            self.assertEqual([(kind, round(float(width))) for kind, width in found], wanted)

    def test_objects_that_count(self) -> None:
        """Of objects of one class, and in objects in place of bytes."""
        name = "com/acme/mail/Message"
        self.check_texts(
            one_dump(by=page.Unit.OBJECTS, of_class=name),
            f"holds 811,204 objects of {name}, 81% of the objects",
            f"Shares are of the objects of {name}.",
            "Reachable heap 1,002,300 objects 49.6 MB",
        )

    def test_where_memory_ran_out(self) -> None:
        """Each thread that ran out has its methods, the first own one set off; it is not said to be the reason."""
        text = self.check_texts(one_dump(), "They need not be what filled the heap")
        self.assertIn(
            "java/util/Arrays.copyOf java/util/ArrayList.grow com/acme/mail/Inbox.add com/acme/mail/Server.run", text
        )
        self.assertRegex(page.html_of(one_dump()), r'<li class="own">com/<wbr>acme/<wbr>mail/<wbr>Inbox.<wbr>add</li>')
        deep = page.RanOutEntry("", [f"java/lang/A.b{number}" for number in range(20)] + ["app/Main.run"], 20)
        self.check_texts(
            one_dump(ran_out=[deep]),
            "A thread without a name ran out of memory in app/Main.run.",
            "Thread without a name 19 methods more java/lang/A.b19 app/Main.run",
        )
        nothing = page.RanOutEntry("x", [])
        self.check_texts(one_dump(ran_out=[nothing]), 'Thread "x" ran out of memory.', 'Thread "x" not known')
        self.assertNotIn("ran out", self.outline(one_dump(ran_out=[])).text())

    def test_weak_references_and_sizes(self) -> None:
        """If weak references are followed, the top says so; the page says which bytes it counts."""
        self.assertIn("Soft references are followed.", self.top_of(one_dump(weak="Soft references are followed.")))
        self.check_texts(one_dump(), "Bytes are those of fields and elements as the dump writes them")
        found = "counts times sizes that were found in the dump"
        text = self.check_texts(
            one_dump(layout="Objects begin at each 8th byte."), "Objects begin at each 8th byte.", found
        )
        self.assertNotIn("as the dump writes them", text)

    def test_nothing_found(self) -> None:
        """A dump in which nothing holds much, and one that is empty."""
        self.check_texts(bare_dump(), "alone holds much of the heap", "The dump has no reachable objects.")
        nothing = page_sample.dump(0, (0, 0), (0, 0))
        self.check_texts(bare_dump(dump=nothing), "0 bytes in 0 objects, all of which are reachable.")

    def test_rows_that_are_left_out(self) -> None:
        """Long lists are cut, and the page says so."""
        it = one_dump()
        lists = {"suspects": it.suspects * 10, "contents": it.contents * 5, "ran_out": it.ran_out * 23}
        lists["objects"] = [dataclasses.replace(it.objects[0], line=3)] * 22
        wanted = (
            "Not shown: 10 rows more",
            "Not shown: 6 classes more",
            "Not shown: 3 threads more",
            "Not shown: 2 rows more",
        )
        self.check_texts(one_dump(**lists), *wanted)

    def test_order(self) -> None:
        """The sections, as the list of them has them."""
        outline = self.outline(one_dump())
        targets = [target[1:] for target in outline.values("href")]
        self.assertEqual(targets, ["heap", "holders", "ran-out", "last", "omitted", "terms", "making"])
        self.assertEqual([value for value in outline.values("id") if value in targets], targets)

    def test_structure(self) -> None:
        """What a screen reader needs, and nothing that fetches or runs."""
        for it in one_dump(), bare_dump(), hostile_one_dump():
            self.check_structure(it)
            self.check_not_active(it)

    def test_hostile_names_are_text(self) -> None:
        """Names are text, whatever they are and wherever."""
        text = self.outline(hostile_one_dump()).text()
        for name in [*HOSTILE[:7], *ESCAPES]:
            with self.subTest(name):
                self.assertIn(name, text)
        self.assertNotIn("\u202e", page.html_of(hostile_one_dump()))

    def test_worst_names(self) -> None:
        """No page is too large, whatever the names."""
        for char in (*"<&/\u202e\U0001f4a9", '"$', "&/"):
            with self.subTest(char):
                names = [char * 10_000 + str(number) for number in range(40)]
                self.outline(hostile_one_dump(names, [char * 10_000] * 40))


if __name__ == "__main__":
    unittest.main()
