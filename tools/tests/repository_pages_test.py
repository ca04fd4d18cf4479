"""Tests that pages name what exists, and say the numbers and versions that are written elsewhere."""

from __future__ import annotations

import math
import pathlib
import re
import sys
import unittest
from collections import Counter

from heap_tools import VERSION

TOP = pathlib.Path(__file__).resolve().parents[2]
sys.path.insert(0, str(TOP / "dev"))
import crate_list

#: The numbers below twenty, and the tens, in words.
ONES = "zero one two three four five six seven eight nine ten eleven twelve thirteen fourteen fifteen sixteen seventeen"
TENS = "- - twenty thirty forty fifty sixty seventy eighty ninety"
#: The sections of README, in the order in which a stranger needs them, and the most lines of the page.
SECTIONS = ["Install", "One dump", "Two dumps", "In a build", "The report", "The guarantee", "Licence"]
MOST_LINES = 120


def read(name: str) -> str:
    """Returns the text of a file of the repository."""
    return (TOP / name).read_text(encoding="utf-8")


def section(page: str, head: str) -> str:
    """Returns the section `head` of a page, with the sections in it."""
    marks = head.split()[0]
    found = re.search(rf"^{re.escape(head)}$.*?(?=^{'#?' * (len(marks) - 1)}# |\Z)", read(page), re.M | re.S)
    assert found, f"{page} has no section {head}"
    return found[0]


def in_words(number: int) -> str:
    """Returns a number below two hundred in words."""
    if number >= 100:
        return "a hundred" + (f" and {in_words(number - 100)}" if number > 100 else "")
    ones, (tens, rest) = [*ONES.split(), "eighteen", "nineteen"], divmod(number, 10)
    return ones[number] if number < 20 else TENS.split()[tens] + (f"-{ones[rest]}" if rest else "")


def files(folder: str) -> list[str]:
    """Returns the names of the files in a folder that are no pages."""
    return sorted(path.name for path in (TOP / folder).iterdir() if path.is_file() and path.suffix != ".md")


class PagesTest(unittest.TestCase):
    """README, CONTRIBUTING, ARCHITECTURE, the page of bench/, crates.txt, CHANGELOG"""

    def require_names(self, names: list[str], text: str) -> None:
        """Requires that each name is in the text."""
        self.assertGreater(len(names), 3)
        for name in names:
            with self.subTest(name):
                self.assertTrue(re.search(rf"(?<![\w-]){re.escape(name)}(?![\w-]|\.\w)", text), f"{name} is not there")

    def test_map(self) -> None:
        """ARCHITECTURE has each module of the tools, each tool and each script."""
        text = section("docs/ARCHITECTURE.md", "## Tools")
        for folder in ("tools/heap_tools", "tools/heap_tools/commands", "tools/heap_tools/page", "tools", "dev"):
            self.require_names([name for name in files(folder) if name not in ("__init__.py", "py.typed")], text)
        for folder in ("tools/heap_tools", "tools/heap_tools/commands", "tools/heap_tools/page", "dev"):
            for name in re.findall(r"`(\w+\.py)`", text):
                self.assertTrue(list((TOP / "tools").rglob(name)) or (TOP / "dev" / name).exists(), name)

    def test_bench(self) -> None:
        """The page of bench/ has each file there."""
        self.require_names(files("bench"), read("bench/README.md"))

    def test_services(self) -> None:
        """Each service that leaks is in the table of bench/leaks.sh, and the page has their numbers."""
        rows = re.findall(r"^(\w+)/(\w+) \d+ \d", read("bench/leaks.sh"), re.M)
        sources = (TOP / "bench/java/leaks").glob("*/?*Service.java")
        self.assertEqual(sorted(rows), sorted((path.parent.name, path.stem) for path in sources))
        page = read("bench/README.md")
        for folder, count in Counter(folder for folder, _ in rows).items():
            self.assertIn(f"\n- `{folder}`: {in_words(count)} ", page)
        self.assertIn(f"{in_words(len(rows))} [services that leak]", page)

    def test_crates(self) -> None:
        """The head of crates.txt names each library of the kit, and those of the crates that it speaks of."""
        text = read(crate_list.PAGE)
        uses = crate_list.read(text)
        head = "".join(line for line in text.splitlines(True) if line.startswith("#"))
        self.require_names(sorted({used for each in uses.values() for used in each} - uses.keys()), head)

    def test_version(self) -> None:
        """The newest version of CHANGELOG is that of the tools and of heapmark."""
        self.assertEqual(re.findall(r"^## \[([0-9.]+)\] - \d{4}-\d\d-\d\d$", read("CHANGELOG.md"), re.M)[0], VERSION)

    def test_minutes(self) -> None:
        """The README's minutes of the first build are those of GATE."""
        measured = [float(it) for it in re.findall(r"\*\*([0-9.]+)\*\*", section("docs/GATE.md", "## The first build"))]
        span = f"{math.floor(min(measured))} to {math.ceil(max(measured))} minutes"
        self.assertIn(f"`tools/build` takes {span}", read("README.md"))

    def test_readme(self) -> None:
        """README is short, has its sections in their order, and links each page that tools/package installs with it."""
        page = read("README.md")
        self.assertLessEqual(page.count("\n"), MOST_LINES)
        self.assertEqual(re.findall(r"^## (.*)$", page, re.M), SECTIONS)
        for name in ("LEAK", "OPTIONS", "JSON", "HISTOGRAM", "LABELS", "PERFORMANCE", "PROOFS", "ASSUMPTIONS", "GATE"):
            self.assertIn(f"](docs/{name}.md", page)
        self.assertIn("**Without it**, ask the owner", section("README.md", "## Install"))
        for tool in ("grown --own", "leaks"):
            self.assertIn(f"    {tool} --more-than ", section("README.md", "## In a build"))
        self.assertIn("](FORMAT.md", read("docs/OPTIONS.md"))

    def test_options(self) -> None:
        """OPTIONS has the options of heapmark's help, each with its default."""
        (help_text,) = re.findall(r'HELP: &str = "\\\n(.*?)";', read("crates/heapmark/src/tests/texts.rt"), re.S)
        of_help = re.findall(r"^ +--([a-z-]+) <[A-Z]+>(.*?)(?=^ +-)", help_text, re.M | re.S)
        defaults = {name: re.findall(r"\[default: (\d+)\]", text) or ["none"] for name, text in of_help}
        of_page = re.findall(
            r"^    --([a-z-]+) [A-Z]+ .*\(([\d,]+|none)\)$", section("docs/OPTIONS.md", "## Options"), re.M
        )
        self.assertEqual({name: [default.replace(",", "")] for name, default in of_page}, defaults)
        self.assertEqual(len(of_page), 5)

    def test_logic(self) -> None:
        """PROOFS names the logic that the programs print with their version."""
        (logic,) = re.findall(r"^rattle logic (\w+)", read("crates/common_line/src/version.rt"), re.M)
        self.assertIn(f"logic `{logic}`", read("docs/PROOFS.md"))
