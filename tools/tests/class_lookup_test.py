"""Tests of what is said of a name that no class, field or option has."""

import unittest

from heap_tools.class_lookup import why_no_field, why_unknown
from heap_tools.close_names import close_names
from heap_tools.command_line import Parser
from heap_tools.faults import WRONG_USE, Fault

CLASSES = [
    "Post",
    "Post$Mail",
    "Post$Tenant",
    "shop/Order",
    "shop/Orders",
    "store/Order",
    "[Lshop/Order;",
    "a/Bus$$Lambda",
] + ["java/lang/String", "byte[]", "shop/Stock$Item", "a/b/c/d/e/f/g/First", "a/b/c/d/e/f/g/Other"]


class NamesTest(unittest.TestCase):
    """Names that are nearly those of others."""

    def test_classes(self) -> None:
        """A class is suggested that has the simple name, else one whose simple name differs in few letters."""
        spell = "spell it as the report does, and in quotes"
        for text, why in (
            ("Post$Mial", "did you mean Post$Mail?"),
            ("post$mail", "did you mean Post$Mail?"),
            ("POST", "did you mean Post?"),
            ("Post.Tenant", "did you mean Post$Tenant?"),
            ("Post.TENANT", "did you mean Post$Tenant?"),
            ("Order", "did you mean shop/Order or store/Order?"),
            ("shop.Ordr", "did you mean shop/Order or shop/Orders?"),
            ("ordr", "did you mean shop/Order or store/Order or shop/Orders?"),
            ("other.Ordr", "did you mean shop/Order or store/Order or shop/Orders?"),
            ("shop.Ordr[]", "did you mean [Lshop/Order;?"),
            ("java.lang.Strin", "did you mean java/lang/String?"),
            ("a/b/c/d/e/f/g/Nothing", spell),
            ("shop/Stock", "did the shell take a $ away? quote the name"),
            ("Zebra", spell),
            ("", spell),
        ):
            self.assertEqual(why_unknown(text, CLASSES), why, text)

    def test_fields(self) -> None:
        """A field of the class is suggested that differs in few letters."""
        lists = "Post itself declares no such field: javap -p lists its fields; a superclass may have it"
        for field, why in (
            ("TENANT", "Post itself declares no such field: did you mean TENANTS?"),
            ("tenants", "Post itself declares no such field: did you mean TENANTS?"),
            ("inbox", lists),
            ("", lists),
        ):
            self.assertEqual(why_no_field("Post", field, ["TENANTS", "TENANTS", "size"]), why, field)

    def test_most(self) -> None:
        """At most three names are suggested, the closest first."""
        self.assertEqual(close_names("abcdef", ["abcdeg", "ABCDEF", "abcdex", "abcdey"])[0], "ABCDEF")
        self.assertEqual(len(close_names("abcdef", [f"abcde{letter}" for letter in "ghijk"])), 3)

    def test_options(self) -> None:
        """An option is suggested, for what is no option nothing; and words after -- are said as they are."""
        for words, said in (
            (["--package", "x"], "--package: did you mean --packages?: tool --help says more"),
            (["--TOP=3", "x"], "--TOP=3: did you mean --top?: tool --help says more"),
            (["--other", "x"], "--other: tool --help says more"),
            (["x", "packages"], "packages: tool --help says more"),
            (["x", "--", "--package"], "--package: tool --help says more"),
        ):
            parser = Parser("tool", "[OPTIONS] <DUMP>", "About.", "Notes.")
            parser.operand("dump", "A dump")
            parser.flag("--packages", "Packages")
            parser.option("--top", "N", "Lines")
            with self.assertRaises(Fault) as raised:
                parser.read(words)
            self.assertEqual(raised.exception.status, WRONG_USE)
            self.assertEqual(str(raised.exception), f"unrecognized arguments: {said}")


if __name__ == "__main__":
    unittest.main()
