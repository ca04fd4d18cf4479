"""Tests of dumps that are compressed by gzip: each tool reads them as the dumps that they are of."""

import gzip
import os
import pathlib
import re
import unittest
from typing import List, Tuple
from unittest import mock

from heap_tools import gzip_dump
from heap_tools.dump_file import state_of, whole_content
from heap_tools.faults import UNREADABLE, Fault
from heap_tools.gzip_dump import UnpackedDump, beginning, forget, readable_name, unpacked
from heap_tools.plain_dumps import is_dump, length_of
from heap_tools.reports import LARGEST_DUMP
from tests.support.services import cache
from tests.support.tool_test import ToolTest, histogram


def members(content: bytes, length: int) -> bytes:
    """Returns the content compressed as a virtual machine does it: each `length` bytes by themselves."""
    return b"".join(gzip.compress(content[at : at + length]) for at in range(0, len(content), length))


class GzipDumpTest(ToolTest):
    """Compressed dumps."""

    def setUp(self) -> None:
        super().setUp()
        for number, name in ((20, "monday"), (80, "friday")):
            cache(number, minutes=number).write(name)
            content = pathlib.Path(name).read_bytes()
            pathlib.Path(f"{name}.gz").write_bytes(members(content, 1000))

    def test_tools(self) -> None:
        """Each tool prints the same of compressed dumps and of those that they are of, and says the same."""
        pathlib.Path("histogram").write_text(histogram((1, 16, "A")))
        cases: Tuple[List[str], ...] = (
            ["leaks", "monday", "friday"],
            ["leaks", "friday"],
            ["grown", "monday", "friday"],
            ["grown", "--per-hour", "--skip", "shop/Order.text", "monday", "friday"],
            ["grown", "histogram", "friday"],
            ["holders", "friday", "shop/Order"],
            ["held", "friday", "shop/Service.CACHE"],
            ["sizes", "friday"],
        )
        for tool, *words in cases:
            with self.subTest([tool, *words]):
                plain = self.ran(*words, tool=tool)
                packed = self.ran(
                    *(f"{word}.gz" if word in ("monday", "friday") else word for word in words), tool=tool
                )
                self.assertEqual((packed.status, packed.out), (plain.status, plain.out), packed.said)
                shown = re.sub(r"[0-9.]+ s$", "", packed.said.replace(".gz", ""), flags=re.M)
                self.assertEqual(shown, re.sub(r"[0-9.]+ s$", "", plain.said, flags=re.M))

    def test_mixed(self) -> None:
        """Compressed dumps stand beside others, and a dump is no field and no class."""
        plain, packed = self.ran("monday", "friday", tool="leaks"), self.ran("monday.gz", "friday", tool="leaks")
        self.assertEqual((packed.status, packed.out), (0, plain.out))
        for tool, words in (("held", ["monday", "friday.gz"]), ("holders", ["monday", "friday.gz"])):
            said = f"{tool}: friday.gz: a file: leaks monday friday.gz shows what grew, and what holds it"
            self.expect(words, said=said, status=2, tool=tool)

    def test_damaged(self) -> None:
        """What is cut or damaged takes one line, and so does a compressed file that is no dump."""
        content = pathlib.Path("friday.gz").read_bytes()
        damaged = bytearray(gzip.compress(pathlib.Path("friday").read_bytes()))
        damaged[-6] ^= 1
        files = {
            "cut.gz": (content[:-9], "compressed, and ends too early: still being written, or cut"),
            "sum.gz": (bytes(damaged), "compressed, and damaged: CRC check failed *"),
            "more.gz": (content + b"more", "compressed, and damaged: Not a gzipped file *"),
            "head.gz": (content[:2] + b"\7" + content[3:], "compressed, and damaged: Unknown compression method"),
            "text.gz": (gzip.compress(b"no dump"), "* (refused 1 BadHeader at 0)*"),
            "short.gz": (gzip.compress(pathlib.Path("friday").read_bytes()[:-1]), "* (refused 3 Truncated at *)"),
        }
        for name, (each, said) in files.items():
            pathlib.Path(name).write_bytes(each)
            for tool, words in (("sizes", [name]), ("leaks", ["monday", name]), ("grown", ["monday", name])):
                self.expect(words, said=f"{tool}: {name}: {said}", status=1, tool=tool)

    def test_large(self) -> None:
        """Not more is unpacked than a byte above the limit of heapmark, and of what is no dump only a part."""
        zeros, part = gzip.compress(bytes(1 << 20)), 1 << 16
        for begin, limit, length in (
            (b"JAVA PROFILE 1.0.2\0", 100_000, 100_001),
            (b"JAVA PROFILE 1.0.2\0", 3 << 20, (3 << 20) + 1),
            (b"no dump", 3 << 20, part),
        ):
            pathlib.Path("large.gz").write_bytes(gzip.compress(begin) + zeros * 9)
            with mock.patch.object(gzip_dump, "LARGEST_DUMP", limit), mock.patch.object(gzip_dump, "UNPACK_SIZE", part):
                found = UnpackedDump("large.gz")
            self.assertEqual((found.length, os.path.getsize(found.place)), (length, length))
            found.close()

    def test_once(self) -> None:
        """A dump is unpacked once, until it is forgotten; then its memory is given back."""
        place = readable_name("friday.gz")
        self.assertEqual((place, readable_name("friday")), (readable_name("friday.gz"), "friday"))
        self.assertEqual(pathlib.Path(place).read_bytes(), pathlib.Path("friday").read_bytes())
        self.assertIsNone(unpacked("friday"))
        forget("friday.gz")
        forget("friday.gz")
        self.assertFalse(os.path.exists(place))

    def test_changed(self) -> None:
        """A file that changed after it was unpacked is not read as what it was before."""
        state = state_of("friday.gz")
        self.assertEqual(whole_content("friday.gz", state), pathlib.Path("friday").read_bytes())
        os.utime("friday.gz", (1, 1))
        with self.assertRaisesRegex(Fault, "^friday.gz: it changed while it was read$"):
            whole_content("friday.gz", state)
        with self.assertRaisesRegex(Fault, "^friday.gz: it changed while it was read$"):
            whole_content("friday.gz", state_of("friday.gz"))
        forget("friday.gz")

    def test_plain_files(self) -> None:
        """What is known of a file before it is unpacked."""
        self.assertTrue(is_dump("friday.gz") and is_dump("friday"))
        self.assertEqual(beginning("friday.gz", 40), pathlib.Path("friday").read_bytes()[:40])
        self.assertEqual((length_of("friday.gz"), length_of("none")), (LARGEST_DUMP, 0))
        readable_name("friday.gz")
        self.assertEqual(length_of("friday.gz"), length_of("friday"))
        forget("friday.gz")
        pathlib.Path("other.gz").write_bytes(gzip.compress(b"other"))
        pathlib.Path("cut.gz").write_bytes(b"\x1f\x8b")
        self.assertFalse(is_dump("other.gz") or is_dump("cut.gz"))

    def test_old_python(self) -> None:
        """Without such files of the system, a message says what helps."""
        with mock.patch.object(os, "memfd_create", create=True):
            del os.memfd_create
            with self.assertRaises(Fault) as raised:
                unpacked("friday.gz")
        said = "friday.gz: compressed: gunzip it first, or use Python 3.8 or later"
        self.assertEqual((str(raised.exception), raised.exception.status), (said, UNREADABLE))


if __name__ == "__main__":
    unittest.main()
