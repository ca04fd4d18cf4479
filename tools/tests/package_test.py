"""Tests of tools/package: the folder that it makes, the manual pages, the completions, and links of installed pages."""

from __future__ import annotations

import collections
import os
import pathlib
import re
import shutil
import subprocess
import sys
import tempfile
import unittest
from typing import Counter

from tests.support.services import cache

TOP = pathlib.Path(__file__).resolve().parents[2]
DATA = TOP / "crates/heapmark/data"
DUMP = str(DATA / "two_objects.hprof")
BINARY = os.path.realpath(os.environ.get("HEAPMARK") or TOP / "crates/heapmark/out/heapmark")
RETAINED = TOP / "crates/retained/out/retained"
#: The programs that are built.
BUILT: dict[str, str | pathlib.Path] = {"heapmark": BINARY, "retained": RETAINED}
TOOLS = ("leaks", "grown", "holders", "held", "sizes")
PAGES = ("LEAK", "OPTIONS", "JSON", "HISTOGRAM", "FORMAT", "LABELS")
DOCUMENTS = ("README.md", *(f"docs/{name}.md" for name in PAGES))
#: The headings of the help, and those of a manual page.
HEADINGS = {"Usage: ": "", **{f"{head}:": head.upper() for head in ("Arguments", "Options", "Exit status", "Example")}}
HEADINGS["Examples:"] = "EXAMPLE"
#: Completes the last of the words after a name, as bash does, by the file that is made for that name.
COMPLETE = """
. "$1"; shift
COMP_WORDS=("$@") COMP_CWORD=$(($# - 1))
"_$1"
echo "${COMPREPLY[*]}"
"""


def ran(
    *words: str | pathlib.Path, env: dict[str, str] | None = None, cwd: pathlib.Path | None = None
) -> subprocess.CompletedProcess[str]:
    """Runs a program, and returns how it ended."""
    return subprocess.run(
        [str(word) for word in words],
        stdin=subprocess.DEVNULL,
        stdout=subprocess.PIPE,
        stderr=subprocess.PIPE,
        universal_newlines=True,
        timeout=100,
        env=env,
        cwd=cwd,
        check=False,
    )


def words_of(text: str) -> Counter[str]:
    """Returns how often each word is in a text, without back-ticks."""
    return collections.Counter(text.replace("`", "").split())


def refusals() -> list[list[str]]:
    """Returns the rows of the table of refusals in docs/OPTIONS.md, without links: the codes with their names, and what
    to do."""
    text = (TOP / "docs/OPTIONS.md").read_text(encoding="utf-8")
    (table,) = re.findall(r"^\| Refusal .*\n\|[-|]+\n((?:\|.*\n)+)", text, re.M)
    rows = [line.strip("|").split("|") for line in re.sub(r"\[([^]]*)\]\([^)]*\)", r"\1", table).splitlines()]
    return [[cell.strip() for cell in row] for row in rows]


def anchors(page: pathlib.Path) -> set[str]:
    """Returns the headings of a page as links name them."""
    heads = re.findall(r"^#+ (.*)$", page.read_text(encoding="utf-8"), re.M)
    return {re.sub(r"[^\w -]", "", head.lower()).replace(" ", "-") for head in heads}


class PackageTest(unittest.TestCase):
    """The folder that tools/package makes. It is made once."""

    room: tempfile.TemporaryDirectory[str]
    made: pathlib.Path
    environment: dict[str, str]
    ended: subprocess.CompletedProcess[str]

    @classmethod
    def setUpClass(cls) -> None:
        cls.room = tempfile.TemporaryDirectory()
        cls.made = pathlib.Path(cls.room.name, "made")
        cls.environment = {key: value for key, value in os.environ.items() if key != "HEAPMARK"}
        cls.environment["PYTHONDONTWRITEBYTECODE"] = "1"
        cls.ended = cls.packed(cls.made, BINARY)

    @classmethod
    def tearDownClass(cls) -> None:
        cls.room.cleanup()

    @classmethod
    def packed(cls, *words: str | pathlib.Path) -> subprocess.CompletedProcess[str]:
        """Runs tools/package."""
        return ran(TOP / "tools/package", *words, env=cls.environment)

    def test_refused(self) -> None:
        """A program that is not built, and what is none, have a line; a folder that exists is left alone."""
        self.assertEqual((self.ended.returncode, self.ended.stderr), (0, ""))
        other = pathlib.Path(self.room.name, "other")
        for binary, why in ((other / "nowhere", "* does not exist: build it first"), (TOP / "README.md", "")):
            ended = self.packed(other, binary)
            self.assertEqual((ended.returncode, ended.stderr.count("\n"), other.exists()), (1, 1, False))
            self.assertTrue(ended.stderr.startswith("package: ") and why.strip("*") in ended.stderr, ended.stderr)
        self.assertEqual(self.packed(self.made, BINARY).stderr, f"package: {self.made} exists already\n")
        wrong: list[list[str]] = [[], [str(other), BINARY, str(RETAINED), "more"], ["--other"]]
        for words in wrong:
            self.assertEqual((self.packed(*words).returncode, other.exists()), (2, False))

    def test_programs(self) -> None:
        """Each program runs where it is installed, and the tools find heapmark beside them."""
        programs = self.made / "bin"
        report = (TOP / "crates/heapmark/stdout").read_text(encoding="utf-8")
        self.assertEqual(ran(programs / "heapmark", DUMP).stdout, report)
        table = (TOP / "crates/retained/stdout").read_text(encoding="utf-8")
        self.assertEqual(ran(programs / "retained", DUMP, TOP / "crates/retained/data/one_label").stdout, table)
        number = ran(programs / "heapmark", "--version").stdout.split()[1]
        for name in TOOLS:
            self.assertEqual(ran(programs / name, "--help").stdout, ran(TOP / "tools" / name, "--help").stdout)
            self.assertEqual(ran(programs / name, "--version").stdout, f"{name} {number}\n")
        path = f"{os.path.dirname(sys.executable)}:/usr/bin:/bin"
        before, after = (f"{self.room.name}/{name}.hprof" for name in ("monday", "friday"))
        cache(20).write(before)
        cache(80, minutes=12).write(after)
        for words, said in (
            (["grown", DUMP, DUMP], ""),
            (["held", DUMP, "A.b"], "held: A.b: A itself declares no such field"),
            (["holders", DUMP], "holders: "),
            (["leaks", before, after], "leaks: "),
            (["sizes", DUMP], "sizes: the sizes of objects in the heap are not known"),
            (["leaks", DUMP, DUMP], f"leaks: {DUMP}: the same file as {DUMP}"),
        ):
            ended = ran(programs / words[0], *words[1:], env={**self.environment, "PATH": path})
            self.assertTrue(ended.stderr.startswith(said) and ended.returncode != 5, ended.stderr)

    def test_files(self) -> None:
        """Nothing else is in the folder: of the library all that is not for tests."""
        found = {str(path.relative_to(self.made)) for path in self.made.rglob("*") if path.is_file()}
        library = {name for name in found if name.startswith("lib/heapmark/heap_tools/")}
        self.assertEqual(len(found - library), 5 * (len(TOOLS) + len(BUILT)) + len(DOCUMENTS))
        self.assertEqual(
            [name for name in library if re.search(r"_test|testing|dump_writer|pycache|page_sample", name)], []
        )
        imported = "from heap_tools.commands import grown, held, holders, leaks, sizes; "
        imported += "from heap_tools import page; page.html_of"
        ended = ran(sys.executable, "-B", "-c", imported, env={"PYTHONPATH": str(self.made / "lib/heapmark")})
        self.assertEqual((ended.returncode, ended.stderr), (0, ""))

    @unittest.skipUnless(shutil.which("man"), "man is not here")
    def test_manual_pages(self) -> None:
        """`man` sets each page without a warning. It has all words of the help, and says where to read on."""
        version = ran(BINARY, "--version").stdout.split("\n")[0]
        for name in (*BUILT, *TOOLS):
            page = self.made / f"share/man/man1/{name}.1"
            for width in ("80", "1000"):
                ended = ran("man", "--warnings", "-E", "ascii", "-l", page, env={**self.environment, "MANWIDTH": width})
                self.assertEqual((ended.returncode, ended.stderr), (0, ""), name)
            plain = re.sub(".\b", "", ended.stdout)
            text = ran(BUILT.get(name, TOP / "tools" / name), "--help").stdout
            for heading, of_page in HEADINGS.items():
                text = re.sub(f"^{heading}", of_page, text, flags=re.M)
            if name == "heapmark":
                text += " ".join(cell for row in refusals() for cell in row)
            self.assertEqual(words_of(text) - words_of(plain), collections.Counter(), name)
            self.assertRegex(plain, rf"(?m)^{version} +\d{{4}}-\d\d-\d\d +{name.upper()}\(1\)$")
            self.assertIn("\nSEE ALSO", plain)
            for part in ("\nENVIRONMENT", "GLIBC_TUNABLES"):
                self.assertEqual(part in plain, name != "retained", name)

    def test_refusals(self) -> None:
        """The refusals of OPTIONS are those of FORMAT."""
        of_format = (TOP / "docs/FORMAT.md").read_text(encoding="utf-8")
        found = [pair for cell, _ in refusals() for pair in re.findall(r"([0-9]+) `([A-Za-z]+)`", cell)]
        self.assertGreater(len(found), 5)
        for code, name in found:
            self.assertIn(f"| {code} | {name} |", of_format)

    def test_links(self) -> None:
        """No link of an installed page is dead, and what is not installed is named by words."""
        docs = self.made / "share/doc/heapmark"
        for name in DOCUMENTS:
            page = docs / name
            text = page.read_text(encoding="utf-8")
            self.assertEqual(text.count("\n"), (TOP / name).read_text(encoding="utf-8").count("\n"))
            self.assertNotRegex(text, r"(?m)^!", "a picture that is not installed")
            for target in re.findall(r"\[[^][]*\]\(([^) ]*)\)", text):
                path, _, anchor = target.partition("#")
                other = page.parent / path if path else page
                if "://" not in target:
                    self.assertTrue(other.is_file() and (not anchor or anchor in anchors(other)), f"{name}: {target}")
        self.assertIn("`CONTRIBUTING.md` of the sources", (docs / "README.md").read_text(encoding="utf-8"))
        lines = (docs / "docs/HISTOGRAM.md").read_text(encoding="utf-8").splitlines()
        wrong = [line for line in lines if re.search("(bench|tools)/", line) and "of the sources" not in line]
        self.assertEqual(wrong, [])

    @unittest.skipUnless(shutil.which("bash"), "bash is not here")
    def test_bash(self) -> None:
        """bash completes options, and files where a file may stand."""
        two, dump = "two", "two_objects.hprof"
        for words, wanted in (
            (["heapmark", "--w"], "--workers"),
            (["heapmark", "--buffer"], "--buffer --buffers"),
            (["heapmark", "--workers", "4", two], dump),
            (["heapmark", "--workers", "=", "4", two], dump),
            (["heapmark", "--workers", ""], ""),
            (["heapmark", "--skip", ""], ""),
            (["heapmark", dump, two], ""),
            (["retained", "--v"], "--version"),
            (["retained", two], dump),
            (["retained", dump, two], dump),
            (["retained", dump, dump, two], ""),
            (["grown", "--p"], "--per-hour"),
            (["grown", "a", "b", two], dump),
            (["grown", "--more-than", ""], ""),
            (["held", "--bytes", "--more-than", "3", two], dump),
            (["held", dump, two], ""),
            (["holders", "--at-least", "=", "5", two], dump),
            (["holders", dump, two], ""),
            (["holders", "--top", ""], ""),
            (["leaks", "a", "b", two], dump),
            (["leaks", "a", "--html", two], dump),
            (["leaks", "--top", ""], ""),
            (["sizes", two], dump),
            (["sizes", "--html", two], dump),
        ):
            place = self.made / "share/bash-completion/completions" / words[0]
            ended = ran("bash", "-c", COMPLETE, "bash", place, *words, cwd=DATA)
            self.assertEqual(ended.stdout.strip(), wanted, words)

    def test_zsh_and_fish(self) -> None:
        """zsh takes a value after =, too, and completes files, but no fields and classes. Both read their files."""
        folder = self.made / "share/zsh/site-functions"
        options = re.findall(r"^    '--[\w-]+=\[[^]]+\]:number: ' ", (folder / "_heapmark").read_text(), re.M)
        self.assertEqual(len(options), 4)
        last = [(folder / f"_{name}").read_text().splitlines()[-1].strip(" '") for name in ("heapmark", *TOOLS)]
        files = ["1:file:_files", "*:after:_files", "*:after:_files", "2::class:", "2:fields:", "1:dump:_files"]
        self.assertEqual(last, files)
        self.assertIn("--html=[", (folder / "_leaks").read_text())
        self.assertIn(":file:_files'", (folder / "_leaks").read_text())
        for shell in filter(shutil.which, ("zsh", "fish")):
            for path in (self.made / "share" / shell).rglob("*"):
                if path.is_file():
                    self.assertEqual(ran(shell, "-n", path).returncode, 0, path)
