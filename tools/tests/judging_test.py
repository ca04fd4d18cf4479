"""Tests how bench/leaks.sh and bench/oom.sh compile programs and judge what leaks prints, with small programs in place
of a JDK, leaks and held."""

from __future__ import annotations

import os
import pathlib
import subprocess
import tempfile
import unittest

TOP = pathlib.Path(__file__).resolve().parents[2]
HEAPMARK = "#!/bin/sh\nprintf '%10s  %14s  %s\\n' 1 8 A 1 8 '(reachable)'\n"
#: Starts heapmark twice, and prints the files `lines` and `told`.
LEAKS = """#!/bin/sh
"$HEAPMARK" "$1" > /dev/null; "$HEAPMARK" "$1" > /dev/null
cat "$(dirname "$0")/lines"; cat "$(dirname "$0")/told" >&2
"""
#: Prints the line of the file `hanging` that begins with the fields and a colon, without these.
HELD = '#!/bin/sh\nsed -n "s|^$2: ||p" "$(dirname "$0")/hanging"\n'
#: Says its version, or writes the dumps of a program.
JAVA = """#!/bin/sh
[ "$2" != -version ] || echo '    java.specification.version = 17' >&2
for word; do
    case $word in
        -*) ;;
        *.hprof) echo dump > "$word" ;;
    esac
done
"""
#: Notes in a line the sources that the file has which its last word names.
JAVAC = """#!/bin/sh
for word; do :; done
sed 's|.*/||; s|"$||' "${word#@}" | paste -s -d ' ' - >> "$(dirname "$0")/compiled"
"""
FIGURES = "       30          2048     90%  0 -> 9        1  "
RAN_OUT = 'leaks: memory ran out in thread "chat-3" in full/Chat.say, full/Chat.serve\n'
RAN_OUT_OF_TOKENS = 'leaks: cache "tokens"\nleaks: memory ran out in thread "cart-1" in full/Eternal.serve\n'


class JudgingTest(unittest.TestCase):
    """Each verdict of both scripts."""

    def setUp(self) -> None:
        room = tempfile.TemporaryDirectory()
        self.addCleanup(room.cleanup)
        self.room = pathlib.Path(room.name)
        for name in ("dumps", "bin"):
            (self.room / name).mkdir()
        for name, text in (("heapmark", HEAPMARK), ("leaks", LEAKS), ("held", HELD), ("hanging", "")):
            self.program(name, text)

    def program(self, name: str, text: str) -> None:
        """Writes a program."""
        (self.room / name).write_text(text)
        (self.room / name).chmod(0o755)

    def ended(self, script: str, *words: str, line: str = "", told: str = "", **variables: str) -> tuple[int, str]:
        """Runs a script of bench/ on the dumps, where leaks prints the lines of `line` and says something. Returns its
        status and what it printed."""
        (self.room / "lines").write_text("".join(f"{FIGURES}{each}\n" for each in line.splitlines()))
        (self.room / "told").write_text(told)
        given = {"HEAPMARK": "heapmark", "LEAKS": "leaks", "HELD": "held", "DUMPED": "dumps"}
        run = subprocess.run(
            [str(TOP / "bench" / script), *words],
            env={**os.environ, **{name: str(self.room / file) for name, file in given.items()}, **variables},
            stdin=subprocess.DEVNULL,
            stdout=subprocess.PIPE,
            stderr=subprocess.STDOUT,
            text=True,
        )
        return run.returncode, run.stdout

    def dump(self, *names: str) -> None:
        """Writes dumps of these names."""
        for name in names:
            (self.room / "dumps" / f"{name}.hprof").write_text("dump")

    def test_compiled(self) -> None:
        """The programs of a folder are compiled at once, but for those that lack something."""
        self.program("bin/java", JAVA)
        self.program("bin/javac", JAVAC)
        for script, words, compiled, rows in (
            (
                "leaks.sh",
                ["MetricsService", "ScopeService", "BasketService", "QuoteService"],
                ["BasketService.java", "MetricsService.java QuoteService.java"],
                "0 right, 3 wrong, 1 left out",
            ),
            (
                "oom.sh",
                ["Chat", "Pages", "Report"],
                ["Chat.java Report.java", "Pages.java"],
                "0 right, 3 wrong, 0 left out",
            ),
        ):
            (self.room / "bin/compiled").write_text("")
            _, out = self.ended(script, *words, DUMPED="", JAVA_HOME=str(self.room))
            self.assertEqual(out.splitlines()[-1], rows)
            self.assertEqual(sorted((self.room / "bin/compiled").read_text().splitlines()), compiled)

    def test_killed(self) -> None:
        """A program that does not run out of memory in time has no dump, and that is an error."""
        self.program("bin/java", JAVA)
        self.program("bin/javac", JAVAC)
        self.program("bin/timeout", '#!/bin/sh\nshift 2\n"$@"\nexit 137\n')
        path = f"{self.room}/bin:{os.environ['PATH']}"
        status, out = self.ended("oom.sh", "Chat", DUMPED="", JAVA_HOME=str(self.room), PATH=path)
        self.assertEqual((status, out.splitlines()[-1]), (1, "full/Chat: no dump"))

    def test_two_dumps(self) -> None:
        """A line is right if it ends with the holder, and partly right if nothing says which object it is."""
        self.dump("BasketService-before", "BasketService-after")
        holder = "hard/BasketService$Basket.items"
        for line, told, verdict in (
            (holder, "leaks: basket-4711", "1 right, 0 wrong"),
            (f"static hard/BasketService.BASKETS > {holder}", "leaks: basket-4711", "1 right, 0 wrong"),
            (holder, "leaks: none", "0 right, 1 partly, 0 wrong"),
            (f"{holder} > hard/Item.next", "leaks: basket-4711", "0 right, 1 wrong"),
            (f"static hard/Catalog.PRODUCTS > {holder}", "leaks: basket-4711", "0 right, 1 wrong"),
            ("", "leaks: nothing grew", "0 right, 1 wrong"),
        ):
            status, out = self.ended("leaks.sh", "BasketService", line=line, told=told)
            self.assertIn(f"{verdict}, 0 left out\n", out)
            self.assertEqual(status, 0 if verdict.startswith("1 right") else 1)
            self.assertIn("| 2 | `", out)

    def test_together(self) -> None:
        """Fields that only together hold the leak are right if each is, or if they are those of a holder."""
        self.dump("JournalService-before", "JournalService-after", "LogbackService-before", "LogbackService-after")
        journal, screen = "static shop/JournalService$Journal.events", "static shop/JournalService$Screen.shown"
        cache = "ch/qos/logback/classic/LoggerContext.loggerCache"
        root = "ch/qos/logback/classic/LoggerContext.root"
        children = "ch/qos/logback/classic/Logger.childrenList"
        for name, line, right in (
            ("JournalService", f"together {journal}, {screen}", 1),
            ("JournalService", f"shop/Screen.old > together {screen}, {journal}", 1),
            ("JournalService", journal, 0),
            ("JournalService", f"together {journal}, static shop/Other.shown", 0),
            ("JournalService", f"together {journal}, {screen}, static shop/Other.shown", 0),
            ("LogbackService", f"together {children}, {cache}", 1),
            ("LogbackService", f"together {root}, {cache}", 1),
            ("LogbackService", f"together {root}, {children}", 0),
        ):
            status, out = self.ended("leaks.sh", name, line=line)
            self.assertIn(f"{right} right, {1 - right} wrong, ", out)
            self.assertEqual(status, 1 - right)

    def test_several(self) -> None:
        """Each of several leaks has to have one of the first lines, in any order."""
        self.dump("LobbyService-before", "LobbyService-after")
        log, pool = "several/LobbyService$Room.log", "static several/LobbyService$Names.POOL"
        queue = "java/util/concurrent/ThreadPoolExecutor.workQueue"
        named, other = 'leaks: room "entrance"', "static several/Other.ROOMS"
        for lines, told, verdict in (
            (f"{log}\n{pool}\n{queue}", named, "1 right, 0 wrong"),
            (f"{queue}\n{other} > {log}\n{pool}\n{other}", named, "1 right, 0 wrong"),
            (f"{log}\n{pool}\n{queue}", "", "0 right, 1 partly, 0 wrong"),
            (f"{log}\n{pool}", named, "0 right, 1 partly, 0 wrong"),
            (f"{log}\n{other}\n{pool}\n{queue}", named, "0 right, 1 partly, 0 wrong"),
            (f"{log}\n{log}\n{pool}", named, "0 right, 1 partly, 0 wrong"),
            (f"{other}\n{log}\n{pool}\n{queue}", named, "0 right, 1 wrong"),
            ("", named, "0 right, 1 wrong"),
        ):
            status, out = self.ended("leaks.sh", "LobbyService", line=lines, told=told)
            self.assertIn(f"{verdict}, 0 left out\n", out)
            self.assertEqual(status, 0 if verdict.startswith("1 right") else 1)
        self.assertIn(f"no line names {pool}, nor {queue} | ", self.ended("leaks.sh", "LobbyService", line=log)[1])

    def test_library(self) -> None:
        """The row of a program that needs libraries is read as another is."""
        self.dump("AtomService-before", "AtomService-after", "Eternal-17-G1")
        for script, name, line, told in (
            ("leaks.sh", "AtomService", "clojure/lang/Atom.state", "leaks: sessions\n"),
            ("oom.sh", "Eternal", "net/sf/ehcache/store/MemoryStore.map", RAN_OUT_OF_TOKENS),
        ):
            status, out = self.ended(script, name, line=line, told=told)
            self.assertIn("1 right, 0 wrong, 0 left out\n", out)

    def test_left_out(self) -> None:
        """A program without dumps is left out, and no program of a name is an error."""
        for script, name in (("leaks.sh", "BasketService"), ("oom.sh", "Chat")):
            status, out = self.ended(script, name)
            self.assertEqual((status, out.splitlines()[-1]), (0, "0 right, 0 wrong, 1 left out"))
            self.assertEqual(self.ended(script, "Nothing"), (2, "no such program: Nothing\n"))

    def test_one_dump(self) -> None:
        """An answer is right if the holder, each step above it, the object and the thread are."""
        self.dump("Chat-17-G1", "Chat-21-Serial")
        above, holder = "static full/Chat.SESSIONS_BY_USER", "full/Chat$Session.history"
        path, named = f"{above} > {holder}", 'leaks: user "welcome-bot"\n'
        steps = f"{above}: 3 100 A\n{holder}: 2 90 A\n{above}, {holder}: 3 100 A\n"
        for line, told, hanging, verdict in (
            (path, named + RAN_OUT, steps, "2 right, 0 wrong"),
            (path, RAN_OUT, steps, "0 right, 2 partly, 0 wrong"),
            (path, named, steps, "0 right, 2 wrong"),
            (path, named + RAN_OUT.replace("chat-3", "chat-4"), steps, "0 right, 2 wrong"),
            (path, named + RAN_OUT.replace("full/Chat", "full/Other"), steps, "0 right, 2 wrong"),
            (path, named + RAN_OUT, steps.replace("3 100 A\n" + holder, "3 80 A\n" + holder), "0 right, 2 wrong"),
            (path, named + RAN_OUT, steps + f"{above}, {holder}: 1 9 B\n", "0 right, 2 wrong"),
            (above, named + RAN_OUT, steps, "0 right, 2 wrong"),
        ):
            (self.room / "hanging").write_text(hanging)
            status, out = self.ended("oom.sh", "full", line=line, told=told)
            self.assertIn(f"median runs: 2\n{verdict}, ", out)
            self.assertEqual(status, 0 if verdict.startswith("2 right") else 1)

    def test_healthy(self) -> None:
        """A healthy program may not be said to leak or to have grown."""
        self.dump("Pages-17-Serial")
        for told, right in (
            ("leaks: 80% of the heap", 1),
            ("leaks: it grew", 0),
            ("leaks: a leak", 0),
            (RAN_OUT, 0),
        ):
            status, out = self.ended("oom.sh", "Pages", line="static steady/Pages.RECENT", told=told)
            self.assertIn(f"{right} right, {1 - right} wrong", out)
            self.assertEqual(status, 1 - right)


if __name__ == "__main__":
    unittest.main()
