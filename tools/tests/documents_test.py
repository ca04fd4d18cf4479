"""Compares the documents of `--json` with their form, which docs/JSON.md describes."""

import json
import re
import unittest
from typing import Any, Dict, Iterator, List, NamedTuple, Tuple

from heap_tools.documents import document, file_entry
from heap_tools.reports import Report
from tests.support.held_objects import DUMPS
from tests.support.services import cache, dispatched, handler, of_customer, reporters
from tests.sizes_test import shop
from tests.support.tool_test import TOP, ToolTest, histogram, report


class Maybe(NamedTuple):
    """The form of a value that may be null."""

    form: Any


#: The form of a value: a type, the texts that it may be, a list with the form of its elements, or fields with forms.
AMOUNT = {"objects": int, "bytes": int}
HEAD = {"format": int, "tool": {"grown", "held", "holders", "leaks", "sizes"}, "version": str, "notes": [str]}
UNIT = {"objects", "bytes"}
PLACING = {"filled", *(f"references {at}{gaps}" for at in ("first", "last") for gaps in ("", ", with gaps"))}
FILE = {
    "path": str,
    "kind": {"dump", "report", "histogram"},
    "time_ms": Maybe(int),
    "bytes_of": {"heap", "dump"},
    "reachable": Maybe(AMOUNT),
    "unreachable": Maybe(AMOUNT),
    "unresolved": Maybe(int),
}
FIELD = {"kind": {"static", "field", "local", "thread", "threads"}, "name": str, "text": str}
ROOT = {"kind": {"static", "local", "thread", "machine"}, "name": str, "text": str}
FORMS: Dict[str, Dict[str, Any]] = {
    "grown": {
        **HEAD,
        "files": [FILE],
        "unit": UNIT,
        "hours": Maybe(float),
        "classes": [{"class": str, "growth": AMOUNT, "steps": [int], "growth_per_hour": Maybe(float)}],
        "hidden": int,
    },
    "leaks": {
        **HEAD,
        "files": [FILE],
        "unit": UNIT,
        "classes": Maybe([str]),
        "at_least_percent": float,
        "follows_weak": bool,
        "whole": AMOUNT,
        "growth": Maybe(AMOUNT),
        "lines": [
            {
                "path": [[FIELD]],
                "text": str,
                "is_own": bool,
                "before": Maybe(AMOUNT),
                "retained": AMOUNT,
                "share_percent": float,
                "instances_before": Maybe(int),
                "instances": int,
                "elements_before": Maybe(int),
                "elements": Maybe(int),
                "objects": Maybe(
                    {
                        "field": [FIELD],
                        "objects": [
                            {
                                "class": str,
                                "names": [{"how": str, "text": str}],
                                "retained": AMOUNT,
                                "share_percent": float,
                                "share_of": {"growth", "retained"},
                                "of": int,
                                "is_element": bool,
                            }
                        ],
                    }
                ),
                "held_by": Maybe({"roots": [ROOT], "are_all": bool}),
            }
        ],
        "hidden": int,
        "left": AMOUNT,
        "contents": [{"class": str, "retained": AMOUNT}],
        "own_classes": [{"class": str, "growth": AMOUNT}],
        "more_threads": [{"pattern": str, "before": int, "after": int, "methods": [str]}],
        "ran_out": [{"thread": str, "methods": [str], "before_own": int}],
        "direct_bytes": [int],
        "heap_capacity_bytes": Maybe(int),
        "fields_tried": int,
        "runs": int,
        "seconds": float,
    },
    "holders": {
        **HEAD,
        "file": FILE,
        "class": Maybe(str),
        "unit": UNIT,
        "at_least_percent": float,
        "whole": AMOUNT,
        "lines": [{"fields": [FIELD], "retained": AMOUNT, "share_percent": float, "instances": int}],
        "hidden": int,
        "without_statics": int,
    },
    "sizes": {
        **HEAD,
        "file": FILE,
        "layout": Maybe({"alignment": int, "header": int, "reference": int, "array_header": int, "placing": PLACING}),
        "all": AMOUNT,
        "reachable": AMOUNT,
        "unreachable": AMOUNT,
        "omitted": AMOUNT,
        "waiting_stacks": AMOUNT,
        "classes": [{"name": str, "all": AMOUNT, "reachable": AMOUNT, "unreachable": AMOUNT}],
        "hidden": int,
    },
    "held": {
        **HEAD,
        "file": FILE,
        "unit": UNIT,
        "fields": [{"text": str, "problem": Maybe(str)}],
        "retained": AMOUNT,
        "classes": [{"class": str, "retained": AMOUNT}],
    },
}


def faults(value: Any, form: Any, at: str = "") -> Iterator[str]:
    """Yields where a value does not have the form."""
    if isinstance(form, Maybe):
        yield from () if value is None else faults(value, form.form, at)
    elif isinstance(form, dict):
        if not isinstance(value, dict) or value.keys() != form.keys():
            yield f"{at}: {value!r} has not the fields {sorted(form)}"
        else:
            for name, inner in form.items():
                yield from faults(value[name], inner, f"{at}.{name}")
    elif isinstance(form, list):
        if not isinstance(value, list):
            yield f"{at}: {value!r} is no list"
        else:
            for number, each in enumerate(value):
                yield from faults(each, form[0], f"{at}[{number}]")
    elif isinstance(form, set):
        yield from () if value in form else [f"{at}: {value!r} is none of {sorted(form)}"]
    elif type(value) is not form and not (form is float and type(value) is int):
        yield f"{at}: {value!r} is no {form.__name__}"


def names_in(form: Any) -> Iterator[str]:
    """Yields the names of all fields of a form."""
    if isinstance(form, Maybe):
        yield from names_in(form.form)
    elif isinstance(form, list):
        yield from names_in(form[0])
    elif isinstance(form, dict):
        for name, inner in form.items():
            yield name
            yield from names_in(inner)


class DocumentsTest(ToolTest):
    """--json of each command."""

    def document(self, *words: str, status: int = 0, form: str = "") -> Dict[str, Any]:
        """Runs a command, the first of the words, with --json. Returns its document, which has the form."""
        tool, *rest = words
        ended = self.ran("--json", *rest, tool=tool)
        self.assertEqual(ended.status, status, ended.said)
        self.assertTrue(ended.out.isascii() and ended.out.endswith("}\n"), ended.out)
        found: Dict[str, Any] = json.loads(ended.out, parse_constant=self.fail)
        self.assertEqual(list(faults(found, FORMS[form or tool])), [])
        self.assertEqual((found["format"], found["tool"]), (1, tool))
        said = [line.partition(": ")[2] for line in ended.said.splitlines() if line.startswith(f"{tool}: ")]
        self.assertTrue(set(found["notes"]) <= set(said), (found["notes"], said))
        return found

    def test_grown(self) -> None:
        """Dumps, reports and histograms, with each option that changes the document."""
        for number in (1, 2, 3):
            cache(20 * number, 60 * number).write(f"{number}.hprof")
        found = self.document("grown", "--per-hour", "--bytes", "1.hprof", "2.hprof", "3.hprof")
        (first, *_) = found["classes"]
        self.assertEqual((first["class"], first["growth"]), ("byte[]", {"objects": 40, "bytes": 800}))
        self.assertEqual((first["steps"], first["growth_per_hour"], found["hours"]), ([400, 400], 400.0, 2.0))
        self.assertEqual([each["time_ms"] for each in found["files"]], [3600000, 7200000, 10800000])
        found = self.document("grown", "--top", "1", "--own", "--more-than", "3", "1.hprof", "2.hprof", status=3)
        self.assertEqual((len(found["classes"]), found["hidden"], found["unit"]), (1, 0, "objects"))
        every = self.document("grown", "1.hprof", "2.hprof")["classes"]
        found = self.document("grown", "--top", "1", "1.hprof", "2.hprof")
        self.assertEqual((found["classes"], found["hidden"]), (every[:1], len(every) - 1))
        self.assertGreater(len(every), 1)
        self.assertEqual(self.document("grown", "1.hprof", "1.hprof")["classes"], [])
        with open("r", "w") as file:
            file.write(report((1, 8, "A"), unreachable=(3, 4)))
        with open("r2", "w") as file:
            file.write(report((2, 9, "A"), unreachable=(5, 6)))
        found = self.document("grown", "r", "r2")
        self.assertEqual([each["unreachable"]["objects"] for each in found["files"]], [3, 5])
        self.assertIn("unreachable", found["notes"][0])
        with open("h", "w") as file:
            file.write(histogram((1, 16, "A")))
        self.assertEqual([each["reachable"] for each in self.document("grown", "h", "h")["files"]], [None, None])

    def test_sizes(self) -> None:
        """Classes, and packages, with and without a layout."""
        shop().written().write("shop.hprof")
        found = self.document("sizes", "--top", "1", "shop.hprof")
        sizes = {"alignment": 8, "header": 12, "reference": 4, "array_header": 16}
        self.assertEqual(found["layout"], {**sizes, "placing": "filled"})
        (first,) = found["classes"]
        self.assertEqual(first["all"], {"objects": 400, "bytes": 9600})
        self.assertEqual((first["unreachable"]["bytes"], found["hidden"] > 0), (7200, True))
        FORMS["packages"] = {**FORMS["sizes"], "packages": FORMS["sizes"]["classes"]}
        del FORMS["packages"]["classes"]
        self.document("sizes", "--packages", "shop.hprof", form="packages")
        cache(5).write("few.hprof")
        self.assertIsNone(self.document("sizes", "few.hprof")["layout"])

    def test_held(self) -> None:
        """What fields retain, and entries that name none."""
        DUMPS["shop"].write("shop.hprof")
        found = self.document("held", "shop.hprof", "static Shop.CACHE, Order.none", status=6)
        self.assertEqual([each["text"] for each in found["fields"]], ["static Shop.CACHE", "Order.none"])
        self.assertEqual([each["problem"] is None for each in found["fields"]], [True, False])
        self.assertEqual(found["classes"][0], {"class": "Order", "retained": {"objects": 20, "bytes": 0}})
        total = {unit: sum(each["retained"][unit] for each in found["classes"]) for unit in ("objects", "bytes")}
        self.assertEqual(found["retained"], total)

    def test_holders(self) -> None:
        """Lines with one field and with several, hidden ones, and no line."""
        for name in ("shop", "journal", "threads"):
            DUMPS[name].write(f"{name}.hprof")
        found = self.document("holders", "shop.hprof", "Order", "--top", "1")
        (line,) = found["lines"]
        self.assertEqual(line["fields"], [{"kind": "static", "name": "Shop.CACHE", "text": "static Shop.CACHE"}])
        self.assertEqual((line["share_percent"], line["instances"], found["hidden"]), (80, 1, 1))
        self.assertEqual((found["class"], found["unit"], found["at_least_percent"]), ("Order", "objects", 10))
        self.assertEqual(found["whole"]["objects"], 25)
        self.assertEqual(found["without_statics"], 5)
        found = self.document("holders", "journal.hprof", "Event")
        self.assertEqual([each["name"] for each in found["lines"][0]["fields"]], ["Journal.EVENTS", "Screen.SHOWN"])
        kinds = {each["fields"][0]["kind"] for each in self.document("holders", "threads.hprof", "Message")["lines"]}
        self.assertTrue({"thread", "local"} <= kinds)
        found = self.document("holders", "shop.hprof", "--at-least", "99")
        self.assertEqual((found["lines"], found["class"], found["unit"]), ([], None, "bytes"))

    def test_leaks(self) -> None:
        """Two dumps: paths as lists of steps, which object gained most, which threads there are more of."""
        of_customer(20).write("before.hprof")
        of_customer(400, 60).write("after.hprof")
        runs: List[Tuple[List[str], bool]] = [([], True), (["--no-values"], False)]
        for words, is_shown in runs:
            found = self.document("leaks", *words, "before.hprof", "after.hprof")
            line, kinds = found["lines"][0], [[each["kind"] for each in step] for step in found["lines"][0]["path"]]
            self.assertEqual((kinds, line["instances"], line["instances_before"]), ([["static"], ["field"]], 80, 80))
            self.assertEqual(line["path"][-1][0]["text"], "shop/Basket.items")
            self.assertEqual((line["text"], line["is_own"]), ("static shop/Baskets.ALL > shop/Basket.items", True))
            self.assertEqual(
                found["own_classes"][0], {"class": "shop/Order", "growth": {"objects": 380, "bytes": 3040}}
            )
            self.assertEqual(line["retained"]["objects"] - line["before"]["objects"], found["growth"]["objects"])
            (one,) = line["objects"]["objects"]
            self.assertEqual((one["class"], one["of"]), ("shop/Basket", 80))
            self.assertEqual((line["objects"]["field"], found["left"]), (line["path"][-1], {"objects": 0, "bytes": 0}))
            self.assertEqual("alice" in one["names"][0]["text"], is_shown)
            self.assertEqual("alice" in json.dumps(found), is_shown)
            self.assertEqual([len(found["files"]), found["ran_out"]], [2, []])
        self.assertIsNone(line["held_by"])
        dispatched(20).write("before.hprof")
        dispatched(80).write("after.hprof")
        held_by = self.document("leaks", "before.hprof", "after.hprof")["lines"][0]["held_by"]
        thread = {"kind": "thread", "name": "HTTP-Dispatcher", "text": 'thread "HTTP-Dispatcher"'}
        self.assertEqual((held_by["roots"][0], len(held_by["roots"]), held_by["are_all"]), (thread, 9, True))
        reporters(1).write("before.hprof")
        reporters(9, 60).write("after.hprof")
        (threads,) = self.document("leaks", "before.hprof", "after.hprof")["more_threads"]
        self.assertEqual((threads["pattern"], threads["before"], threads["after"]), ("report-*", 1, 9))

    def test_leaks_of_one(self) -> None:
        """One dump has no growth; its contents are those of the first line."""
        dump = handler(200)
        dump.of_class(9, "java/lang/OutOfMemoryError")
        dump.thread(2, 710, [(9, "<init>"), (4, "grow"), (8, "handle")])
        dump.instance(710, 6, 701)
        dump.write("one.hprof")
        found = self.document("leaks", "one.hprof", "--at-least", "30")
        line = found["lines"][0]
        self.assertEqual([step[0]["kind"] for step in line["path"]], ["thread", "local"])
        self.assertEqual((line["before"], line["instances_before"], found["growth"]), (None, None, None))
        total = sum(each["retained"]["bytes"] for each in found["contents"])
        self.assertEqual((total, found["at_least_percent"]), (line["retained"]["bytes"], 30))
        (place,) = found["ran_out"]
        self.assertEqual((place["thread"], place["methods"][place["before_own"]]), ("http-0", "shop/Handler.handle"))
        found = self.document("leaks", "one.hprof", "--class", "shop/Order", "--objects", "--weak")
        self.assertEqual((found["classes"], found["unit"], found["follows_weak"]), (["shop/Order"], "objects", True))

    def test_shares_of_objects(self) -> None:
        """What the share of an object is of: of one dump what the field retains; of two its growth if it is measured
        what the object gained, else what the field retains in the last dump."""
        of_customer(20).write("few.hprof")
        of_customer(300, 30).write("some.hprof")
        of_customer(400, 60).write("many.hprof")
        for paths, share_of, least, most in (
            (["many.hprof"], "retained", 83, 84),  # 400 of 479 orders
            (["some.hprof", "many.hprof"], "growth", 100, 100),
            (["few.hprof", "many.hprof"], "retained", 83, 84),
        ):
            with self.subTest(paths=paths):
                found = self.document("leaks", "--top", "1", *paths)
                (one,) = found["lines"][0]["objects"]["objects"]
                self.assertEqual(one["share_of"], share_of)
                self.assertTrue(least <= one["share_percent"] <= most, one)

    def test_hidden(self) -> None:
        """The number of the lines that --all would show and --top hides, of one dump and of two; and what is in no
        line, by lines of which none is above another."""
        of_customer(20).write("before.hprof")
        of_customer(400, 60).write("after.hprof")
        for paths in ["after.hprof"], ["before.hprof", "after.hprof"]:
            every = self.document("leaks", *paths, "--all")
            self.assertEqual((every["hidden"], len(every["lines"]) > 2), (0, True), paths)
            found = self.document("leaks", *paths, "--all", "--top", "1")
            self.assertEqual((found["hidden"], found["lines"]), (len(every["lines"]) - 1, every["lines"][:1]), paths)
            found = self.document("leaks", *paths, "--top", "99")
            held = [
                line["retained"]["objects"] - (line["before"] or {"objects": 0})["objects"] for line in found["lines"]
            ]
            whole = found["growth"] or found["whole"]
            self.assertEqual((found["hidden"], sum(held) + found["left"]["objects"]), (0, whole["objects"]), paths)

    def test_no_growth(self) -> None:
        """At status 3 there is a document without lines, too, and so if no more grew than the user allows."""
        for number, minutes in ((20, 10), (80, 20), (80, 30)):
            cache(number, minutes=minutes).write(f"{minutes}.hprof")
        found = self.document("leaks", "20.hprof", "30.hprof", status=3)
        self.assertEqual((found["lines"], found["growth"]), ([], {"objects": 0, "bytes": 0}))
        self.assertEqual((found["whole"]["bytes"], found["classes"]), (6508, None))
        self.assertEqual(found["notes"], ["reachable: 6,508 bytes, then 6,508: no growth"])
        found = self.document("leaks", "--class", "shop.Order", "20.hprof", "30.hprof", status=3)
        self.assertEqual((found["classes"], found["whole"]), (["shop/Order"], {"objects": 80, "bytes": 640}))
        found = self.document("leaks", "--more-than", "2160", "10.hprof", "20.hprof")
        self.assertEqual((found["lines"], found["growth"]), ([], {"objects": 120, "bytes": 2160}))
        found = self.document("leaks", "--more-than", "2159", "10.hprof", "20.hprof", status=3)
        self.assertEqual((len(found["lines"]), found["growth"]["bytes"]), (1, 2160))
        DUMPS["shop"].write("shop.hprof")
        found = self.document("leaks", "shop.hprof", "--class", "Ghost", status=3)
        self.assertEqual((found["lines"], found["whole"], found["growth"]), ([], {"objects": 0, "bytes": 0}, None))

    def test_nothing(self) -> None:
        """Where no line is printed because nothing could be found, no document is."""
        DUMPS["shop"].write("shop.hprof")
        for words, status in (
            (["held", "shop.hprof", "Order.none"], 6),
            (["held", "none.hprof", "A.x"], 1),
            (["leaks", "shop.hprof", "shop.hprof"], 1),
            (["leaks", "shop.hprof", "--class", "None"], 6),
        ):
            ended = self.ran("--json", *words[1:], tool=words[0])
            self.assertEqual((ended.status, ended.out), (status, ""))

    def test_numbers_and_texts(self) -> None:
        """No document has a NaN or what a terminal obeys, and each path is a text."""
        for number in (float("nan"), float("inf")):
            with self.assertRaises(ValueError):
                document("leaks", {"share_percent": number}, [])
        self.assertEqual(file_entry("a\udcff\u202eb", "histogram", None, Report())["path"], "a\\xff\u202eb")
        self.assertNotIn("\u202e", document("leaks", {"path": "\u202e"}, ["\x1b[m"]))
        self.assertNotIn("\x1b", document("leaks", {"path": "\u202e"}, ["\x1b[m"]))

    def test_page(self) -> None:
        """docs/JSON.md names each field."""
        page = (TOP / "docs/JSON.md").read_text(encoding="utf-8")
        known: List[str] = re.findall(r"`\"?([a-z_]+)\"?`|\"([a-z_]+)\":", page)
        named = {name for each in known for name in each}
        for tool, form in FORMS.items():
            self.assertEqual(sorted(set(names_in(form)) - named), [], tool)

    def test_forms(self) -> None:
        """The validator sees a wrong type, a field too many and one too few."""
        good: Dict[str, Any] = {"text": "A.x", "problem": None}
        (form,) = FORMS["held"]["fields"]
        self.assertEqual(list(faults(good, form)), [])
        for wrong in ({"text": 1, "problem": None}, {"text": "A.x"}, {**good, "more": 1}, [], None):
            self.assertNotEqual(list(faults(wrong, form)), [], wrong)
        self.assertNotEqual(list(faults(True, int)), [])


if __name__ == "__main__":
    unittest.main()
