"""Runs leaks, holders and held on dumps in which a static field of many generated classes holds most."""

import unittest

from tests.support.services import generated
from tests.support.tool_test import ToolTest

ALIKE = "static shop/View$$EnhancerByCGLIB$$*.CALLBACKS"


class ClassesAlikeTest(ToolTest):
    """leaks, holders and held: static fields of classes alike are one."""

    def setUp(self) -> None:
        super().setUp()
        generated(10, size=300).write("before.hprof")
        generated(90, size=300).write("after.hprof")

    def test_growth(self) -> None:
        """Between two dumps line 1 has what all of them gained, and how many classes there were."""
        ended = self.ran("before.hprof", "after.hprof", tool="leaks")
        self.assertEqual(ended.out, f"{80:10} {24000:14} {97:4}% {3000:14} {27000:14}  10 to 90  {ALIKE}\n", ended.said)

    def test_one_dump(self) -> None:
        """One dump shows how many classes have it, and so does holders."""
        line = f"{90:10} {27000:14} {86:4}% {90:9}  {ALIKE}\n"
        self.assertEqual(self.ran("after.hprof", "--top", "1", tool="leaks").out, line)
        self.assertEqual(self.ran("after.hprof", "--at-least", "30", tool="holders").out, line)

    def test_held(self) -> None:
        """held takes the line, and says if there are no such classes."""
        self.assertEqual(self.ran("after.hprof", ALIKE, tool="held").out, f"{90:10} {27000:14}  byte[]\n")
        ended = self.ran("after.hprof", ALIKE.replace("View", "Page"), tool="held")
        self.assertEqual((ended.status, ended.out), (6, ""))
        self.assertIn("no class of the dump is called shop/Page$$EnhancerByCGLIB$$*", ended.said)

    def test_one_alone(self) -> None:
        """If one of the classes holds enough alone, the others are not added."""
        dump = generated(3, size=2000)
        dump.of_class(9999, "shop/View$$EnhancerByCGLIB$$0", {"CALLBACKS": 9998})
        dump.values(9998, 8, bytes(9000))
        dump.root(9999)
        dump.write("one.hprof")
        ended = self.ran("one.hprof", "--at-least", "40", tool="holders")
        self.assertIn("static shop/View$$EnhancerByCGLIB$$0.CALLBACKS\n", ended.out)
        self.assertNotIn("*", ended.out)


if __name__ == "__main__":
    unittest.main()
