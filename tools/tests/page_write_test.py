"""How the page of a leak is written into a file."""

import contextlib
import os
import pathlib
import resource
import tempfile
import unittest
from typing import List, Type
from unittest import mock

from heap_tools import page
from tests.support import page_sample


class WriteTest(unittest.TestCase):
    """How the page is written into a file."""

    def setUp(self) -> None:
        """Makes an empty folder."""
        room = tempfile.TemporaryDirectory()
        self.addCleanup(room.cleanup)
        self.room = pathlib.Path(room.name)
        self.file = self.room / "leak.html"

    def files(self) -> List[str]:
        """Returns the names of all files in the folder."""
        return sorted(path.name for path in self.room.iterdir())

    def test_writes(self) -> None:
        """A new page, and one in place of another."""
        leak = page_sample.leak()
        for _ in range(2):
            page.save(leak, str(self.file))
            self.assertEqual(self.file.read_text(encoding="utf-8"), page.html_of(leak))
            self.assertEqual(self.files(), ["leak.html"])

    def test_keeps_a_link(self) -> None:
        """A symbolic link stays one."""
        os.symlink("leak.html", self.room / "link")
        page.save(page_sample.leak(), str(self.room / "link"))
        self.assertTrue((self.room / "link").is_symlink())
        self.assertEqual(self.files(), ["leak.html", "link"])

    def test_mode_follows_the_mask(self) -> None:
        """The mode of the file is that of any new file."""
        before = os.umask(0o027)
        try:
            page.save(page_sample.leak(), str(self.file))
        finally:
            os.umask(before)
        self.assertEqual(self.file.stat().st_mode & 0o777, 0o640)

    def check_untouched(self, fault: Type[BaseException]) -> None:
        """Requires that a page that was there is there still, and nothing else, after `fault` in writing another."""
        self.file.write_text("before")
        with self.assertRaises(fault):
            page.save(page_sample.leak(), str(self.file))
        self.assertEqual(self.file.read_text(), "before")
        self.assertEqual(self.files(), ["leak.html"])

    def test_full_disk(self) -> None:
        """On a full disk nothing changes."""
        soft, hard = resource.getrlimit(resource.RLIMIT_FSIZE)
        resource.setrlimit(resource.RLIMIT_FSIZE, (5000, hard))
        try:
            self.check_untouched(OSError)
        finally:
            resource.setrlimit(resource.RLIMIT_FSIZE, (soft, hard))

    def test_interrupt(self) -> None:
        """An interrupt changes nothing, whenever it comes."""
        for place in "os.replace", "os.fsync":
            with self.subTest(place), mock.patch(place, side_effect=KeyboardInterrupt):
                self.check_untouched(KeyboardInterrupt)

    def test_refused(self) -> None:
        """Places that no page can be written to."""
        for file in self.room / "no/leak.html", self.room, "/dev/full", self.room / ("x" * 300), "":
            with self.subTest(file), self.assertRaises(OSError):
                page.save(page_sample.leak(), str(file))
        self.assertEqual(self.files(), [])

    def test_no_plain_file(self) -> None:
        """A pipe gets the page itself."""
        reader, writer = os.pipe()
        with open(reader, "rb") as read, contextlib.ExitStack() as stack:
            stack.callback(os.close, writer)
            with mock.patch.object(page, "html_of", return_value="<p>"):
                page.save(page_sample.leak(), f"/dev/fd/{writer}")
            self.assertEqual(os.read(read.fileno(), 100), b"<p>")


if __name__ == "__main__":
    unittest.main()
