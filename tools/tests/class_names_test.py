"""Tests that grown, holders, held and leaks agree on names of classes, as reports show and as users write them."""

import unittest
from typing import List

from heap_tools import class_names
from tests.support.dump_writer import DumpWriter
from tests.support.tool_test import ToolTest

#: Names in a dump, what the tools call them, and how a user may write them.
ODD = [
    ("a/L$$Lambda$14+0x00000008000c0a08", "a/L$$Lambda", ["a/L$$Lambda$15", "a.L$$Lambda$14/0x00000008000c0a08"]),
    ("b/L$$Lambda+0x00007f85e0007680", "b/L$$Lambda", ["b.L$$Lambda/0x00007f85e0007680", "b/L$$Lambda+0x1"]),
    ("c/L$$Lambda/0x000000002a001400", "c/L$$Lambda/0x000000002a001400", ["c/L$$Lambda/0x000000002a001400"]),
    ("d/Hidden+0x0000000800c03000", "d/Hidden", ["d.Hidden/0x0000000800c03000", "d.Hidden"]),
    ("java/lang/invoke/F$MH+0x0000000800c08400", "java/lang/invoke/F$MH", ["java.lang.invoke.F$MH/0x0000000800c08400"]),
    ("e/F$DMH$3+0x0000000800c09000", "e/F$DMH", ["e.F$DMH$3/0x0000000800c09000"]),
    ("de/Größe", r"de/Gr\xc3\xb6\xc3\x9fe", ["de.Größe", "de/Größe", r"de.Gr\xc3\xb6\xc3\x9fe"]),
    ("店/订单", r"\xe5\xba\x97/\xe8\xae\xa2\xe5\x8d\x95", ["店.订单"]),
    ("f/Cache$Order", "f/Cache$Order", ["f.Cache$Order"]),
    ("g/Shop$", "g/Shop$", ["g.Shop$"]),
    ("g/MainKt$main$1", "g/MainKt$main$1", ["g.MainKt$main$1"]),
    ("jdk/proxy2/$Proxy12", "jdk/proxy2/$Proxy12", ["jdk.proxy2.$Proxy12"]),
    ("$Proxy7", "$Proxy7", ["$Proxy7"]),
    ("café au lait", r"caf\xc3\xa9\x20au\x20lait", ["café au lait"]),
    ("a.b\\c", r"a.b\x5cc", ["a.b\\c"]),
    ("h/Old (unused)", r"h/Old\x20(unused)", ["h.Old (unused)"]),
    ("i/<script>", "i/<script>", ["i.<script>"]),
    ("-dash/A", "-dash/A", ["-dash.A"]),
    ("java/util/HashMap$Node", "java/util/HashMap$Node", ["java.util.HashMap$Node (java.base@17)"]),
    (None, "?0x1e", ["?0x1e"]),
]
#: The same for arrays, which have no fields.
ARRAYS = [
    ("[Lcom/shop/Order;", "[Lcom/shop/Order;", ["[Lcom.shop.Order;", "com.shop.Order[]", "com/shop/Order[]"]),
    ("[[Lcom/shop/Order;", "[[Lcom/shop/Order;", ["com.shop.Order[][]"]),
    ("[[I", "[[I", ["int[][]"]),
    ("[La/L$$Lambda$14+0x00000008000c0a08;", "[La/L$$Lambda;", ["[La.L$$Lambda$14/0x00000008000c0a08;"]),
]


def odd_names(count: int) -> DumpWriter:
    """Writes a dump with `count` objects of each odd class in a list of its own, and an array of bytes."""
    dump = DumpWriter(time=count)
    roots: List[int] = []
    for number, (name, _, _) in enumerate([*ODD, *ARRAYS], 11):
        dump.of_class(number, name, fields=["next"] if number < 11 + len(ODD) else [])
        first = 1000 * number
        for at in range(count):
            follower = first + at + 1 if at + 1 < count else 0
            write = dump.instance if number < 11 + len(ODD) else dump.array
            write(first + at, number, follower)
        roots.append(first)
    dump.of_class(10, "[B")
    dump.values(100, 8, bytes(count))
    dump.root(*roots, 100)
    return dump


class FunctionsTest(unittest.TestCase):
    """What is known of a class by its name."""

    def test_family(self) -> None:
        """The counter and the address of a hidden class are cut off, once: one in another's name stays."""
        for name, wanted in (
            ("A$$Lambda$14+0x0f", "A$$Lambda"),
            ("A$$Lambda+0x0f", "A$$Lambda"),
            ("[LA$$Lambda$14+0x0f;", "[LA$$Lambda;"),
            ("A+0x0f$$Lambda$1+0x0e", "A$$Lambda$1+0x0e"),
            ("A$14", "A$14"),
            ("A+0", "A+0"),
        ):
            self.assertEqual(class_names.family(name), wanted)

    def test_pattern(self) -> None:
        """Numbers vary in the names of classes alike, and hexadecimal digits after `$$`, but not those that spell a
        character. Hidden classes have one name."""
        for name, wanted in (
            ("com/sun/proxy/$Proxy12", "com/sun/proxy/$Proxy*"),
            ("a/B$$Lambda$14+0x0000aa", "a/B$$Lambda"),
            ("a\\x1bb77", "a\\x1bb*"),
            ("shop/View$$EnhancerByCGLIB$$3f2a91c0", "shop/View$$EnhancerByCGLIB$$*"),
            ("shop/View$$EnhancerByCGLIB$$3f2a91c0_2", "shop/View$$EnhancerByCGLIB$$*"),
            (
                "shop/View$$EnhancerByGuice$$facade$$FastClassByGuice$$a1",
                "shop/View$$EnhancerByGuice$$*$$FastClassByGuice$$*",
            ),
            ("shop/View$$SpringCGLIB$$0", "shop/View$$SpringCGLIB$$*"),
            ("shop/View$abc", "shop/View$abc"),
            ("shop/View$$abcView", "shop/View$$abcView"),
        ):
            self.assertEqual(class_names.class_pattern_of(name), wanted)

    def test_own(self) -> None:
        """Classes of the JDK, arrays of them and of numbers, and class objects are not own."""
        jdk = "java/lang/String jdk/internal/A sun/nio/ch/A netscape/A org/ietf/jgss/A org/w3c/dom/A org/jcp/xml/dsig/A"
        for name in f"{jdk} org/xml/sax/A [Ljava/lang/String; [[Lsun/A; byte[] [[I <class>".split():
            self.assertFalse(class_names.is_own(name), name)
        for name in "A shop/A [Lshop/A; [[LA; javafx/A java org/xml/A com/sunny/A <classes> ?0x7f".split():
            self.assertTrue(class_names.is_own(name), name)

    def test_javax(self) -> None:
        """Of `javax` and `com/sun` only what the JDK has is the JDK's: libraries have packages there, too."""
        jdk = "annotation/processing/A crypto/A management/A$1 net/ssl/A security/auth/login/A sql/A swing/text/html/A"
        for name in f"{jdk} transaction/xa/A xml/A xml/parsers/A xml/crypto/dsig/A".split():
            self.assertFalse(class_names.is_own(f"javax/{name}"), name)
            self.assertFalse(class_names.is_own(f"[[Ljavax/{name};"), name)
        libraries = "A annotation/A mail/A servlet/http/A persistence/A jms/A ws/rs/A inject/A xml/bind/A xml/ws/A"
        for name in f"{libraries} transaction/A security/auth/message/A management/j2ee/A cache/A validation/A".split():
            self.assertTrue(class_names.is_own(f"javax/{name}"), name)
            self.assertTrue(class_names.is_own(f"[Ljavax/{name};"), name)
        for name in "crypto/provider/A jndi/ldap/A net/httpserver/A org/apache/xerces/internal/A proxy/$Proxy7".split():
            self.assertFalse(class_names.is_own(f"com/sun/{name}"), name)
        for name in "A jna/A mail/imap/A xml/bind/A faces/A enterprise/A".split():
            self.assertTrue(class_names.is_own(f"com/sun/{name}"), name)

    def test_alike(self) -> None:
        """Classes whose simple name is the last of what a user wrote, of packages and of outer classes."""
        known = ["shop/Order", "bank/Order", "shop/Order$Line", "shop/Reorder", "Order"]
        for text, wanted in (
            ("Order", ["bank/Order", "shop/Order"]),
            ("shop.Order[]", ["bank/Order", "shop/Order"]),
            ("Line", ["shop/Order$Line"]),
            ("Lost", []),
        ):
            self.assertEqual(class_names.alike(text, known), wanted, text)

    def test_spelled_apart(self) -> None:
        """No two texts are spelled alike, and none has a quote, a backslash or a control character as it is."""
        texts = ["\x85c", "\u085c", "\\x85c", '"', "\\x22", "'", "\n", "Größe", "\udce9"]
        spelled = [class_names.printable(text) for text in texts]
        self.assertEqual(len(set(spelled)), len(texts))
        for text in spelled:
            self.assertNotRegex(text, r'["\n\x85]|\\(?!x[0-9a-f]{2})')


class NamesTest(ToolTest):
    """The names of a dump with odd classes."""

    tool = "grown"

    def setUp(self) -> None:
        super().setUp()
        odd_names(2).write("before.hprof")
        odd_names(5).write("after.hprof")

    def test_grown(self) -> None:
        """grown shows each class by the name that the others take."""
        shown = [line.split()[-1] for line in self.ran("before.hprof", "after.hprof").out.splitlines()]
        self.assertEqual(sorted(shown), sorted([*(name for _, name, _ in [*ODD, *ARRAYS]), "byte[]"]))

    def test_spellings(self) -> None:
        """Each spelling may mean the name."""
        for _, name, spellings in [*ODD, *ARRAYS, ("[B", "byte[]", ["[B"])]:
            for each in [name, *spellings]:
                self.assertIn(name, class_names.families(each), each)

    def test_printable(self) -> None:
        """Names of threads have one line, without codes of a terminal and marks of direction."""
        odd = ('a\n"b"\\\x1b[2J', r"a\x0a\x22b\x22\x5c\x1b[2J")
        for text, spelt in (
            ("http-ü 0", "http-ü 0"),
            odd,
            ("\u202e", r"\xe2\x80\xae"),
            ("\x85c", r"\xc2\x85c"),
            ("\u085c", r"\xe0\xa1\x9c"),
        ):
            self.assertEqual(class_names.printable(text), spelt)

    def test_others(self) -> None:
        """holders, leaks and held take each name as a user may write it."""
        for _, name, spellings in [*ODD, *ARRAYS, ("[B", "byte[]", ["[B"])]:
            each = spellings[0]
            with self.subTest(name=each):
                ended = self.ran("--", "after.hprof", each, tool="holders")
                self.assertEqual(ended.status, 0, ended.said)
                self.assertIn(f" of {name} ", ended.said)
                ended = self.ran(f"--class={each}", "before.hprof", "after.hprof", tool="leaks")
                self.assertEqual(ended.status, 0, ended.said)
                ended = self.ran("--", "after.hprof", f"{each}.next", tool="held")
                if class_names.is_array(name):
                    self.assertIn(" itself declares no such field", ended.said)
                else:
                    self.assertEqual(ended.out, f"{4:10} {32:14}  {name}\n", ended.said)


if __name__ == "__main__":
    unittest.main()
