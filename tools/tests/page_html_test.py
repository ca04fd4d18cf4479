"""The page of two or more dumps as HTML: its words, its form, and that names are only text in it."""

import dataclasses
import re
import unittest

from heap_tools import page
from heap_tools.page import top, words
from tests.support import page_sample
from tests.support.html_of_page import HtmlOfPage
from tests.support.hostile_names import ESCAPES, HOSTILE, SCRIPT, hostile_leak
from tests.support.outline import Outline
from tests.support.page_sample import MINUTE, NOON, bare_leak, full_leak, leak

#: Numbers of one with a noun of many, and differences with a hyphen for a minus.
ONE_OF_MANY = re.compile(
    r"(?<![\d,.])1 (?:objects|bytes|dumps|rows|classes|instances|times|threads)\b|(?<![\w-])-\d[\d,.]* "
)


class PageOfTwoTest(HtmlOfPage):
    """The page of two or more dumps as HTML."""

    def top_of(self, it: page.Leak) -> str:
        """Returns the text above the sections."""
        return self.outline(it).text().partition("The heap over the dumps")[0]

    def test_figures(self) -> None:
        """The page has each figure, exactly, but for a class that grew little."""
        it = leak()
        outline = self.outline(it)
        values = {int(attributes["value"] or "") for attributes in outline.all("data")}
        amounts = [amount for dump in it.dumps for amount in (dump.reachable, dump.unreachable)]
        amounts += [amount for each in it.grown[:-1] for amount in (each.amounts[0], each.amounts[-1])]
        amounts += [share.amount for each in it.holders for share in (each.before, each.after)]
        for amount in amounts:
            self.assertLessEqual({amount.objects, amount.bytes}, values)
        for exact in "58,284,771 bytes", "44 instances", "12 references", "1 instance":
            value = exact.split()[0].replace(",", "")
            self.assertIn({"value": value, "title": words.solid(exact)}, outline.all("data"))

    def test_texts(self) -> None:
        """What the page says of the sample."""
        self.check_texts(
            leak(),
            "Static field com/acme/shop/metrics/MetricsService.METERS holds 20.4 MB, up from 4.0 MB",
            "In 12 min, the reachable heap grew from 41.2 MB to 58.3 MB.",
            "+85.4 MB per hour +41% in 12 min",
            '"http-nio-8080-exec-1"',
            "leaks --html leak.html",
            "The counts of each single report of heapmark are proved exact",
            "only tested",
        )

    def test_elements(self) -> None:
        """How many elements the containers of a line have, and had, is below its name."""
        first = dataclasses.replace(leak().holders[0], elements="20, then 80 elements")
        self.check_texts(leak(holders=[first]), "20, then 80 elements")
        self.check_texts(page_sample.one_dump(), "40,000 elements")

    def test_what_was_dumped(self) -> None:
        """The program and the date are at the top; what the dumps do not have is skipped."""
        for wanted in [
            "Program com.acme.shop.Application",
            "Process 4711",
            "Virtual machine OpenJDK 64-Bit Server VM, Java 21.0.4",
            "Taken 2026-11-27 12:00 to 12:12 UTC, 3 dumps",
        ]:
            self.assertIn(wanted, self.top_of(leak()))
        dumps = [dataclasses.replace(dump, time=None) for dump in leak().dumps]
        top = self.top_of(bare_leak(dumps=dumps))
        self.assertIn("Taken 3 dumps", " ".join(top.split()))
        for name in "Program", "Process", "Virtual machine", "UTC":
            self.assertNotIn(name, top.partition("heapmark · leaks")[2])

    def test_shares(self) -> None:
        """The share of the growth is that of the line, also above 100 percent; that of the heap has its own name."""
        text = self.check_texts(
            leak(),
            "Its share of the growth 96% +16.4 MB of +17.1 MB",
            "Its share of the heap 10% to 35% of all reachable bytes",
            "The growth is +17.1 MB of all reachable bytes.",
            "Of the growth Of the heap",
        )
        self.assertNotIn("weak references", text.partition("What dumps do not show")[0])
        first, *others = leak().holders
        more = leak(holders=[dataclasses.replace(first, share=200.4), *others])
        self.check_texts(more, "Its share of the growth 200% +16.4 MB of +17.1 MB")

    def test_growth_that_is_less(self) -> None:
        """If shares are of less than the growth of the heap, it is said why where both are; else there is one
        growth."""
        self.check_texts(
            leak(growth=page.Amount(600_000, 16_900_000)),
            "+16.4 MB of +16.9 MB, without weak references and running calls",
            "The growth is +16.9 MB of all reachable bytes. That of the heap is +17.1 MB: what only weak references "
            "or running calls hold does not count.",
        )
        self.check_texts(
            leak(growth=page.Amount(600_000, 16_900_000), counts_calls=True),
            "+16.4 MB of +16.9 MB, without weak references",
            "That of the heap is +17.1 MB: what only weak references hold does not count.",
        )
        self.check_texts(
            leak(growth=page.Amount(602_801, 17_076_436)),
            "+17.1 MB of all reachable bytes. What only weak references or running calls hold does not count.",
        )

    def test_pace(self) -> None:
        """The growth per hour, and how much of the heap that is; without a time only that."""
        first, _, last = leak().dumps
        hour = [
            dataclasses.replace(each, time=NOON + number * 60 * MINUTE) for number, each in enumerate((first, last))
        ]
        nothing = dataclasses.replace(hour[0], reachable=page.Amount())
        many = dataclasses.replace(hour[1], reachable=page.Amount(3_600_000, 17_076_437))
        timeless = [dataclasses.replace(each, time=None) for each in (first, last)]
        for it, wanted in [
            (
                leak(dumps=[nothing, many], by=page.Unit.OBJECTS),
                "Growth of the heap +3,600,000 objects per hour in 1 h",
            ),
            (leak(dumps=hour), "Growth of the heap +17.1 MB per hour +41% in 1 h"),
            (leak(dumps=timeless), "Growth of the reachable heap +41% "),
            (leak(dumps=[dataclasses.replace(timeless[0], reachable=page.Amount()), timeless[1]]), "heap +58.3 MB "),
        ]:
            with self.subTest(wanted):
                self.check_texts(it, wanted)

    def test_nothing_is_said_twice(self) -> None:
        """The figures beside the chart are not those of the sentence at the top."""
        figures = Outline(top.tiles(leak())).text()
        for said in "41.2 MB", "58.3 MB", "Time between":
            self.assertNotIn(said, figures)

    def test_weak_references(self) -> None:
        """If weak references are followed, the top says so."""
        words_of = "4.8 MB more are held by soft references alone: most of the growth; so these are followed."
        self.assertIn(words_of, self.top_of(leak(weak=words_of)))

    def test_what_bytes_are(self) -> None:
        """The page says which bytes it counts: those of the dumps, or those of the heap and how these were found."""
        self.check_texts(leak(), "Bytes are those of fields and elements as the dump writes them")
        layout = "Bytes are those of the heap: objects begin at each 8th byte."
        text = self.check_texts(leak(layout=layout), layout, "counts times sizes that were found in the dump")
        self.assertNotIn("as the dump writes them", text)
        self.assertNotIn("counts times sizes", self.outline(leak()).text())

    def test_much_is_unreachable(self) -> None:
        """What the dumps do not show is warned of at the top if it is much, and only then."""
        top = self.top_of(full_leak())
        self.assertIn("Not in these figures: 14.4 MB more are unreachable in the last dump than in the first", top)
        self.assertIn("46% of all that the last dump has more", top)
        self.assertIn("1,204,332 bytes more are held by weak or final references alone.", top)
        self.assertNotIn("unreachable", self.top_of(leak()))

    def test_order(self) -> None:
        """The answer's table comes before the classes that grew."""
        outline = self.outline(full_leak())
        ids = [value for value in outline.values("id") if value in {target[1:] for target in outline.values("href")}]
        self.assertEqual(ids, ["heap", "holders", "grown", "last", "omitted", "terms", "making"])
        self.assertEqual([target[1:] for target in outline.values("href")], ids)

    def test_what_objects_gained(self) -> None:
        """The shares of objects are those of what all hold, or of what all gained."""
        it = full_leak()
        self.check_texts(it, "these hold most by it", "shares are of what all of them hold.")
        gained = [dataclasses.replace(each, has_gained=True) for each in it.objects]
        wanted = "these gained most by it", "shares are of what all of them gained."
        self.check_texts(dataclasses.replace(it, objects=gained), *wanted)

    def test_what_line_1_holds(self) -> None:
        """The classes of what the first line holds, with how much more of each it holds; those that hardly grew are not
        shown."""
        self.check_texts(
            full_leak(),
            "What line 1 holds All that would be unreachable without it, in the first dump and in the last.",
            "byte[] +10.3 MB +52,940 objects 22,030 to 74,970 1.1 MB to 11.4 MB",
            "com/acme/shop/metrics/MetricsService$Meter +2.3 MB +52,957 objects 22,010 to 74,967 968 kB to 3.3 MB",
        )
        little = [page_sample.grown(f"a/C{number}", (1, 8), (2, 16)) for number in range(5)]
        shrunk = page_sample.grown("a/Shrunk", (9, 99), (1, 11))
        text = self.check_texts(full_leak(contents=[*page_sample.contents(), *little]), "Not shown: 5 classes more.")
        self.assertNotIn("a/C0", text)
        self.check_texts(full_leak(contents=[shrunk]), "a/Shrunk −88 bytes −8 objects 9 to 1 99 bytes to 11 bytes")
        self.assertNotIn("What line 1 holds", self.outline(leak()).text())

    def test_line_numbers(self) -> None:
        """The lines have the numbers by which the objects and the terminal name them."""
        outline = self.outline(full_leak())
        self.assertEqual(len(re.findall('<span class="line-number">', page.html_of(full_leak()))), len(leak().holders))
        for number, wanted in enumerate(["static field", "field", "local variable", "thread", "field"], 1):
            self.assertIn(f"{number} {wanted} ", outline.text())

    def test_instances_before(self) -> None:
        """The number of instances in the first dump is before that of the last, if it is another one."""
        first = leak().holders[0]
        for before, wanted in (None, "METERS 44 "), (44, "METERS 44 "), (3, "METERS 3 to 44 "), (0, "METERS 0 to 44 "):
            self.check_texts(leak(holders=[dataclasses.replace(first, instances=44, instances_before=before)]), wanted)

    def test_threads_of_a_name(self) -> None:
        """Threads whose names differ in a number hold together, in quotes as one does."""
        for field, wanted in [
            (page.FieldEntry(page.THREADS, "report-*"), 'Threads "report-*" hold 8.3 MB, up from 4.0 kB'),
            (page.FieldEntry(page.THREAD, ""), "Thread without a name holds 8.3 MB, up from 4.0 kB"),
            (page.FieldEntry(page.THREADS, ""), "Threads of all names hold 8.3 MB, up from 4.0 kB"),
            (page.FieldEntry(page.LOCAL, "a/B.run"), "Local variables of a/B.run hold 8.3 MB, up from 4.0 kB"),
        ]:
            self.check_texts(leak(holders=[dataclasses.replace(leak().holders[3], fields=[field])]), wanted)

    def test_next_steps(self) -> None:
        """The commands that say more, unless they could not be pasted."""
        first = leak().next_steps[0]
        self.check_texts(leak(), first.purpose, first.command, "holders /tmp/shop-2.hprof")
        odd = [dataclasses.replace(first, command=command) for command in ("held a\nb c", "held " + "x" * 2000)]
        self.assertNotIn("held", self.outline(bare_leak(next_steps=odd)).text())

    def test_terms(self) -> None:
        """The terms of the field."""
        outline = self.outline(bare_leak())
        for term in "GC root", "Unreachable", "Retained", "Accumulation point", "Instances":
            self.assertIn(f"{term} ", outline.text())

    def test_objects_threads_and_notes(self) -> None:
        """What else may be known is shown if it is known."""
        self.check_texts(
            full_leak(),
            'java/util/concurrent/ConcurrentHashMap the map\'s key "meters of /checkout" line 1 12.3 MB 60%',
            "java/util/concurrent/ConcurrentHashMap$Node[] line 2 1.2 kB <1%",
            '"report-*" 1 284 +283 java/lang/Object.wait com/acme/shop/Reporter.run',
            '"http-nio-8080-exec-*" 10 9 −1 not known',
            "1,204,332 bytes more are held by weak or final references alone.",
        )
        nameless = [page.ThreadGroupEntry("", 0, 5, [])]
        self.check_texts(full_leak(threads=nameless), "without a name 0 5 +5 not known")
        text = self.outline(leak()).text()
        for heading in "Which objects", "Threads by name":
            self.assertNotIn(heading, text)

    def test_structure(self) -> None:
        """What a screen reader needs."""
        for it in leak(), full_leak(), hostile_leak(), bare_leak():
            self.check_structure(it)

    def test_nothing_active(self) -> None:
        """Nothing in the page fetches or runs something."""
        for it in full_leak(), hostile_leak():
            self.check_not_active(it)

    def test_names_of_objects(self) -> None:
        """Each name of an object is a line: how it is named, and the text. A static field leads to its object."""
        broker = page.NameEntry("of org/apache/Subscription, its field broker.brokerName", '"localhost"')
        static = page.NameEntry("static app/Archive.ORDERS")
        objects = [page.ObjectEntry(1, "a/Cursor", [broker, static], 1_000, 60)]
        it = full_leak(objects=objects)
        self.check_texts(
            it, "a/Cursor of org/apache/Subscription, its field broker.brokerName", "in static app/Archive.ORDERS"
        )
        self.assertIn('<bdi class="own-name">&quot;localhost&quot;</bdi>', page.html_of(it))

    def test_hostile_names_are_text(self) -> None:
        """Names are text, whatever they are and wherever: also in paths, stacks and patterns of threads."""
        text = self.outline(hostile_leak()).text()
        for name in [*HOSTILE[:7], *ESCAPES]:
            with self.subTest(name):
                self.assertIn(name, text)
        self.assertNotIn("\u202e", page.html_of(hostile_leak()))

    def test_hostile_names_in_each_place(self) -> None:
        """No place of the page has a character that cannot be seen, or a mark of HTML, from a name."""
        for name in SCRIPT, "\u202eltr\u2066", "a\x1b[31m\n":
            it = hostile_leak([name], [name])
            for place, shown in {
                "holders": dataclasses.replace(full_leak(), holders=it.holders),
                "objects": full_leak(objects=it.objects),
                "threads": full_leak(threads=it.threads),
                "notes": full_leak(notes=it.notes, weak=it.weak, layout=it.layout, omitted=it.omitted),
                "classes": full_leak(grown=[page_sample.grown(name, (1, 1), (2, 1000000))] * 3, last=it.last),
                "parts": full_leak(contents=it.contents, shares=it.shares),
                "dumps": full_leak(dumps=[it.dumps[0], *full_leak().dumps[1:]]),
                "rest": full_leak(making=it.making, program=it.program, of_class=name),
            }.items():
                with self.subTest(place):
                    outline = self.outline(shown)
                    self.assertEqual(outline.all("script"), [])
                    self.assertEqual([char for char in set(outline.text()) if char in "\u202e\u2066\x1b"], [])

    def test_worst_names(self) -> None:
        """No page is too large, whatever the names: of names that may be broken everywhere fewer are shown, and less of
        each."""
        for char in (*"<\"'&/$.a\u202e\U0001f4a9", '"$', "&/"):
            with self.subTest(char):
                self.outline(hostile_leak([char * 10_000 + str(number) for number in range(40)], [char * 10_000] * 40))

    def test_rows_that_are_left_out(self) -> None:
        """Long lists are cut, and the page says so."""
        it = full_leak()
        lists = {"grown": it.grown * 100, "holders": it.holders * 10, "dumps": it.dumps * 100}
        lists.update({"objects": it.objects * 30, "threads": it.threads * 40})
        wanted = [f"Not shown: {number} rows more" for number in (30, 40, 60)]
        self.check_texts(dataclasses.replace(it, **lists), "260 dumps more", *wanted)

    def test_classes_that_grew_little(self) -> None:
        """Classes that grew by less than a hundredth of the growth are not shown, but three are in any case."""
        growth = page.Amount(100, 1_000_000)
        dumps = [page_sample.dump(0, (1, 0), (0, 0)), page_sample.dump(1, (1 + growth.objects, growth.bytes), (0, 0))]
        sizes = [500_000, 10_000, 10_000, 10_000, 9_999, 90]
        grown = [page_sample.grown(f"a/C{number}", (0, 0), (1, size)) for number, size in enumerate(sizes)]
        self.check_texts(leak(dumps=dumps, grown=grown), "a/C3 ", "Not shown: 2 classes that grew by less.")
        text = self.check_texts(leak(dumps=dumps, grown=grown[3:]), "a/C5 ")
        self.assertNotIn("Not shown:", text)
        shrank = leak(dumps=dumps[::-1], grown=grown)
        self.check_texts(shrank, "a/C4 ", "Not shown: 1 class that grew by less.")

    def test_nothing_found(self) -> None:
        """A page of a leak of which nothing was found."""
        self.check_texts(bare_leak(), "No class has more", "alone holds", "no reachable objects")

    def test_other_heaps(self) -> None:
        """Heaps that shrank, stayed or were empty, and times in the wrong order. If the bytes did not grow, or do not
        count, both the bytes and the objects are shown."""
        first, _, last = leak().dumps
        nothing = page.Amount(0, 0)
        empty = page.DumpEntry("empty", 0, 0, nothing, nothing, 0)
        early = dataclasses.replace(first, time=(last.time or 0) - 999)
        late = dataclasses.replace(first, time=2**64 - 1)
        fewer = dataclasses.replace(last, reachable=page.Amount(800_000, 30_000_000))
        shrank = "the reachable heap shrank from 58.3 MB to 41.2 MB, and from 1,304,914 to 702,113 objects."
        for dumps, wanted in [
            ([last, first], f"From the first dump to the last, {shrank}"),
            ([first, first], "the reachable heap stayed at 41.2 MB, and at 702,113 objects."),
            ([empty, empty], "the reachable heap stayed at 0 bytes, and at 0 objects."),
            ([empty, last], "the reachable heap grew from 0 bytes to 58.3 MB."),
            ([late, last], "From the first dump to the last"),
            ([early, last], "From the first dump to the last"),
            ([first, fewer], "shrank from 41.2 MB to 30.0 MB, and grew from 702,113 to 800,000 objects."),
        ]:
            with self.subTest(wanted):
                self.check_texts(leak(dumps=dumps), wanted)
        self.check_texts(leak(dumps=[first, fewer]), "−56.0 MB per hour −27% in 12 min")

    def test_fields_that_hold_together(self) -> None:
        """Each has a name of its own, as long as there are few; if they are of several kinds, each says which."""
        held, static = page_sample.held(1, 1, 1.0), [f"static shop/Journal.events{number}" for number in range(8)]
        for texts, wanted, kind in [
            (
                static,
                "Static fields shop/Journal.events0, shop/Journal.events1, shop/Journal.events2, shop/Journal.events3, "
                "shop/Journal.events4, shop/Journal.events5 and 2 more together hold 1 byte",
                "static fields together",
            ),
            (
                static[:2],
                "Static fields shop/Journal.events0 and shop/Journal.events1 together hold 1 byte",
                "together",
            ),
            (["a/B.c, d", "e/F.g"], "Fields a/B.c, d and e/F.g together hold 1 byte", "fields together"),
            (
                ["local a/B.c", "local d/E.f"],
                "Local variables of a/B.c and d/E.f together hold",
                "local variables together",
            ),
            (
                ["static a/B.c", "thread worker-1", "threads http-*"],
                'Together static field a/B.c, thread "worker-1" and threads "http-*" hold 1 byte',
                "1 together static field a/B.c,",
            ),
        ]:
            entry = page.HolderEntry([page_sample.field(text) for text in texts], 8, held, held, 1.0, [])
            self.check_texts(leak(holders=[entry]), wanted, kind)

    def test_way_to_the_first_holder(self) -> None:
        """What is above the first holder is below the headline, as a sentence also if it is several fields."""
        wanted = "reached through static com/acme/shop/timeout/TimeoutService.TIMER"
        self.assertIn(wanted, self.top_of(leak(holders=leak().holders[::-1])))
        self.assertNotIn("reached through", self.top_of(leak()))
        first = leak().holders[0]
        for names, words_of in [
            (["static A.x", "static B.y"], "static A.x and static B.y together"),
            (["static A.x", "static B.y", "static C.z"], "static A.x, static B.y and static C.z together"),
            ([f"static A.{letter}" for letter in "pqrst"], "static A.p, static A.q, static A.r and 2 more together"),
        ]:
            together = page.StepEntry([page_sample.field(name) for name in names])
            it = leak(holders=[dataclasses.replace(first, above=[together, page_sample.step("shop/Table.rows")])])
            self.assertIn(f"reached through {words_of} shop/Table.rows", self.top_of(it))
        kinds = ["thread http-1", "threads http-*", "local a/B.run", "static a/B.c", "a/B.d"]
        wanted = 'thread "http-1" threads "http-*" local a/B.run static a/B.c a/B.d'
        it = leak(holders=[dataclasses.replace(first, above=[page_sample.step(text) for text in kinds])])
        self.assertIn(f"reached through {wanted}", self.top_of(it))
        nameless = [page.StepEntry([page.FieldEntry(kind, "")]) for kind in (page.THREAD, page.THREADS)]
        it = leak(holders=[dataclasses.replace(first, above=nameless)])
        self.assertIn("reached through thread without a name threads without a name", self.top_of(it))

    def test_roots_of_a_path(self) -> None:
        """A path that begins at a field has the nearest root before it, and how many more there are."""
        first = leak().holders[0]
        for kind, name, others, wanted in (
            (page.THREAD, "HTTP-Dispatcher", " and 8 more", 'thread "HTTP-Dispatcher" and 8 more'),
            (page.STATIC, "shop/Main.SERVER", " and others", "static shop/Main.SERVER and others"),
            (page.MACHINE_ROOT, "", "", "the virtual machine"),
        ):
            root = page.StepEntry([page.FieldEntry(kind, name)], others=others)
            it = leak(holders=[dataclasses.replace(first, above=[root, page_sample.step("shop/Server.contexts")])])
            self.assertIn(f"reached through {wanted} shop/Server.contexts", self.top_of(it))

    def test_long_ways(self) -> None:
        """Of a long path the first steps and the last are shown, and how many are between."""
        above = [page_sample.step(f"a/B.c{number}") for number in range(9)]
        it = leak(holders=[dataclasses.replace(leak().holders[0], above=above)])
        self.assertIn("reached through a/B.c0 a/B.c1 a/B.c2 a/B.c3 a/B.c4 3 more a/B.c8", self.top_of(it))

    def test_one_is_no_plural(self) -> None:
        """Numbers agree with their nouns, and a difference has its sign."""
        one = page_sample.grown("com/acme/One", (1, 8), (2, 16), (2, 16))
        self.check_texts(bare_leak(grown=[one]), "+8 bytes +1 object ")
        small = page_sample.held(1, 1, 1.0)
        entry = page.HolderEntry([page_sample.field("com/acme/One.next")], 1, small, small, 1.0, [])
        dumps = [page_sample.dump(number, (1, 1 + number), (1, 1)) for number in range(2)]
        fewer = page_sample.grown("com/acme/Fewer", (125, 8), (1, 9))
        ones = {"dumps": dumps, "holders": [entry], "grown": [fewer], "last": {"com/acme/One": page.Amount(1, 1)}}
        for by in page.Unit:
            for it in bare_leak(by=by, growth=page.Amount(1, 1), **ones), leak(by=by), full_leak(by=by, **ones):
                text = page.html_of(it)
                self.assertEqual(ONE_OF_MANY.findall(Outline(text).text()), [])
                titles = " ".join(value for value in Outline(text).values("title"))
                self.assertEqual(ONE_OF_MANY.findall(titles.replace("\u00a0", " ")), [])
        self.check_texts(bare_leak(**ones), "−124 objects")

    def test_by_objects_of_a_class(self) -> None:
        """Objects of one class, in place of bytes of all."""
        name = "com/acme/shop/metrics/MetricsService$Meter"
        self.check_texts(
            leak(by=page.Unit.OBJECTS, of_class=name, growth=page.Amount(211_800, 8_000_000)),
            f"holds 299,904 objects of {name}, up from 88,104 objects",
            "grew from 702,113 to 1,304,914 objects, and from 41.2 MB to 58.3 MB.",
            f"Its share of the growth 96% +211,800 objects of +211,800 objects of {name}",
            f"Its share of the class 10% to 35% of the objects of {name}",
            f"The growth is +211,800 objects of the objects of {name}.",
            "Of the growth Of the class",
        )
        grown = leak(by=page.Unit.OBJECTS, is_of_grown=True, growth=page.Amount(211_800, 8_000_000))
        self.check_texts(
            grown, "of +211,800 objects of the classes that grew", "Its share of these classes", "Of these classes"
        )


if __name__ == "__main__":
    unittest.main()
