"""What a dump says of the program that it is of."""

import lzma
import unittest

from heap_tools.heap_dump import HeapDump
from heap_tools.program_facts import ProgramFacts, facts_of
from tests.support.dump_writer import BYTE, DumpWriter, word
from tests.support.services import add_properties
from tests.support.tool_test import TOP

MACHINE = "OpenJDK 64-Bit Server VM, Java"


class ProgramFactsTest(unittest.TestCase):
    """Dumps of virtual machines, and one that says nothing."""

    def facts_in(self, content: bytes, shows_values: bool = True) -> ProgramFacts:
        """Returns what a dump with this content says."""
        return facts_of(HeapDump(content), shows_values)

    def test_virtual_machines(self) -> None:
        """The program and the virtual machine, by the tables of the properties of each version."""
        for version, name in [("17", "Small"), ("21", "SmallVirtual"), ("25", "SmallVirtual")]:
            with self.subTest(version):
                content = lzma.decompress((TOP / f"bench/real/jdk{version}.hprof.xz").read_bytes())
                facts = self.facts_in(content)
                self.assertEqual((facts.name, facts.process), (name, None))
                self.assertTrue((facts.machine or "").startswith(f"{MACHINE} {version}."), facts.machine)

    def test_process(self) -> None:
        """The number of the process, if the program has asked for it."""
        dump = DumpWriter()
        dump.of_class(1, "java/lang/ProcessHandleImpl", {"current": 600}, fields=["startTime", "pid"])
        dump.instance(600, 1, bytes(8), word(0) + word(4711))
        dump.root(1)
        self.assertEqual(self.facts_in(dump.bytes()), ProgramFacts(process=4711))

    def test_main_thread(self) -> None:
        """Without properties the class is that of the outermost method of the main thread, if there is one."""
        for name, wanted in ("main", "shop.Application"), ("other", None):
            dump = DumpWriter()
            dump.of_class(6, "java/lang/Thread", fields=["name"])
            dump.of_class(7, "java/lang/String", fields=["value", "coder"])
            dump.of_class(8, "shop/Server")
            dump.of_class(9, "shop/Application")
            dump.thread(1, 700, [(8, "accept"), (9, "main")])
            dump.instance(700, 6, 701)
            dump.instance(701, 7, 702, b"\0")
            dump.values(702, BYTE, name.encode())
            self.assertEqual(self.facts_in(dump.bytes()).name, wanted)

    def test_properties(self) -> None:
        """Only the first word of the command, of a jar file without its folder, by tables before JDK 9; a chain is
        followed, and one that is a ring ends."""
        for command, wanted in [
            ("shop.Application --password=secret", "shop.Application"),
            ("/opt/shop/shop.jar --password=secret", "shop.jar"),
            ("shop/shop.Main", "shop/shop.Main"),
            ("", None),
        ]:
            with self.subTest(command):
                self.assertEqual(
                    self.facts_in(old_properties(command)), ProgramFacts(wanted, None, "HotSpot, Java 1.8")
                )

    def test_without_values(self) -> None:
        """Without values a class of the dump names the program, and no property, argument or file does."""
        for command, wanted in [
            ("java.util.Properties --password=secret", "java.util.Properties"),
            ("shop.Application --password=secret", None),
            ("/home/alice/shop.jar", None),
            ("", None),
        ]:
            with self.subTest(command):
                self.assertEqual(self.facts_in(old_properties(command), False), ProgramFacts(wanted))
        content = lzma.decompress((TOP / "bench/real/jdk21.hprof.xz").read_bytes())
        self.assertEqual(self.facts_in(content, False), ProgramFacts("SmallVirtual"))

    def test_nothing(self) -> None:
        """A dump of no virtual machine says nothing."""
        content = (TOP / "crates/heapmark/data/two_objects.hprof").read_bytes()
        self.assertEqual(self.facts_in(content), ProgramFacts())


def old_properties(command: str) -> bytes:
    """Returns a dump with the properties of a program that was started by `command`."""
    dump = DumpWriter()
    add_properties(dump, command)
    return dump.bytes()


if __name__ == "__main__":
    unittest.main()
