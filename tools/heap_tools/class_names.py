"""Names of classes and fields, as reports, histograms and dumps have them and as users write them."""

import os
import re
from typing import Iterable, List

#: The types of primitive elements by their letter in the name of an array.
PRIMITIVES = dict(B="byte", C="char", D="double", F="float", I="int", J="long", S="short", Z="boolean")
#: The packages below `javax` and `com/sun` that the JDK has: libraries have others there, such as `javax/servlet` or
#: `com/sun/jna`. These are what the file system `jrt:/` of JDK 17.0.15, 21.0.13 and 25.0.5 has, all three the same but
#: for `javax/sound`, which only 25 has; of `com/sun`, where versions differ, the packages above them, and that of the
#: proxies that JDK 15 and older ones make.
JAVAX = frozenset(
    f"javax/{name}"
    for name in """
accessibility annotation/processing crypto crypto/interfaces crypto/spec imageio imageio/event imageio/metadata
imageio/plugins/bmp imageio/plugins/jpeg imageio/plugins/tiff imageio/spi imageio/stream lang/model
lang/model/element lang/model/type lang/model/util management management/loading management/modelmbean
management/monitor management/openmbean management/relation management/remote management/remote/rmi
management/timer naming naming/directory naming/event naming/ldap naming/ldap/spi naming/spi net net/ssl print
print/attribute print/attribute/standard print/event rmi/ssl script security/auth security/auth/callback
security/auth/kerberos security/auth/login security/auth/spi security/auth/x500 security/cert security/sasl
smartcardio sound sound/midi sound/midi/spi sound/sampled sound/sampled/spi sql sql/rowset sql/rowset/serial
sql/rowset/spi swing swing/border swing/colorchooser swing/event swing/filechooser swing/plaf swing/plaf/basic
swing/plaf/metal swing/plaf/multi swing/plaf/nimbus swing/plaf/synth swing/table swing/text swing/text/html
swing/text/html/parser swing/text/rtf swing/tree swing/undo tools transaction/xa xml xml/catalog xml/crypto
xml/crypto/dom xml/crypto/dsig xml/crypto/dsig/dom xml/crypto/dsig/keyinfo xml/crypto/dsig/spec xml/datatype
xml/namespace xml/parsers xml/stream xml/stream/events xml/stream/util xml/transform xml/transform/dom
xml/transform/sax xml/transform/stax xml/transform/stream xml/validation xml/xpath
""".split()
)
COM_SUN = tuple(
    f"com/sun/{name}/"
    for name in """
accessibility beans crypto imageio jarsigner java java_cup jdi jmx jndi management media naming net nio org proxy rowset
security source swing tools xml/internal
""".split()
)
#: What the names of its other classes begin with.
JDK = ("java/", "jdk/", "sun/", "netscape/", "org/ietf/jgss/", "org/jcp/xml/", "org/w3c/dom/", "org/xml/sax/", *COM_SUN)
#: What varies in the names of classes alike: numbers, and what generators add after `$$`, which is the hexadecimal
#: digits of a hash, and a number if two classes have the same hash (CGLIB, and with it Spring and Guice). A byte that
#: the report spells as `\x` and two digits does not vary.
DIGITS, ADDED = frozenset("0123456789"), "$$"
VARYING = re.compile(r"(\\x[0-9a-f]{2})|(?<=\$\$)[0-9a-f]+(_[0-9]+)?(?![0-9A-Za-z_])|[0-9]+")
#: The row of a report for the classes themselves. A class may have a name that begins with `<`, too.
CLASSES = "<class>"


def shown(raw: bytes) -> str:
    """Spells the bytes of a name as the report does."""
    return "".join(chr(byte) if 0x21 <= byte <= 0x7E and byte != 0x5C else f"\\x{byte:02x}" for byte in raw)


def printable(text: str) -> str:
    """Spells a text of a dump in one line: of what does not print, of quotes and of backslashes each byte of their
    UTF-8 as `\\x` and two digits, so that no two texts are spelled alike."""
    return "".join(each if each.isprintable() and each not in '"\\' else byte_escapes(each) for each in text)


def byte_escapes(char: str) -> str:
    """Returns the bytes of a character's UTF-8, each as `\\x` and two digits."""
    return "".join(f"\\x{byte:02x}" for byte in char.encode(errors="surrogatepass"))


def family(name: str) -> str:
    """Returns the name of a hidden class without its counter and address, and any other name as it is."""
    if "+0x" not in name:  # as in most rows of each report
        return name
    return re.sub(r"(\$[0-9]+)?\+0x[0-9a-f]+", "", name, count=1)


def class_pattern_of(name: str) -> str:
    """Returns the name of a class with `*` for what varies in the names of classes alike: `com/sun/proxy/$Proxy12` is
    `com/sun/proxy/$Proxy*`, `shop/View$$EnhancerByCGLIB$$3f2a91c0` is `shop/View$$EnhancerByCGLIB$$*`."""
    name = family(name)
    if DIGITS.isdisjoint(name) and ADDED not in name:  # as most are: this takes a twentieth of the time
        return name
    return VARYING.sub(lambda found: found[1] or "*", name)


def element(name: str) -> str:
    """Returns the class of the elements of an array class, and any other name as it is."""
    found = re.fullmatch(r"\[+L(.*);", name)
    return found[1] if found else name


def is_array(name: str) -> bool:
    """Tests whether `name` is that of an array class."""
    return name.startswith("[") or name.endswith("[]")


def is_own(name: str) -> bool:
    """Tests whether a class is the user's or a library's: neither the JDK's nor an array of primitive values."""
    inner = element(name)
    return not (inner.startswith(JDK) or package(inner) in JAVAX or is_array(inner) or inner == CLASSES)


def package(name: str) -> str:
    """Returns the package of a class, empty if it has none."""
    return element(name).rpartition("/")[0]


def of_dump(raw: bytes) -> str:
    """Returns the name of a class in a dump, in bytes, as the report spells it."""
    return _array(shown(raw))


def of_histogram(text: bytes) -> str:
    """Returns the name of a class in a histogram, in bytes, as the report spells it."""
    return _array(_slashed(shown(re.sub(rb" \([^()]*\)$", b"", text))))


def spellings(text: str) -> List[str]:
    """Returns the names in a report that `text` may mean, the likeliest first. A user may write a name as the report
    shows it, with its letters as they are, with dots for slashes, as the JDK's tools print it, or as Java spells an
    array."""
    found: List[str] = []
    for one in (text, re.sub(r" \([^()]*\)$", "", text)):  # with its module, and without it
        for spelt in (one, shown(os.fsencode(one))):
            found += [spelt, _array(spelt), _slashed(spelt), _array(_slashed(spelt))]
    return list(dict.fromkeys(found))


def families(text: str) -> List[str]:
    """Returns the families that `text` may mean, the likeliest first. The number of a lambda may come without its
    address."""
    return list(dict.fromkeys(re.sub(r"(\$\$Lambda)\$[0-9]+", r"\1", family(one)) for one in spellings(text)))


def alike(text: str, known: Iterable[str]) -> List[str]:
    """Returns those of the names `known` that have the simple name which the last of `text` is."""
    simple = re.split(r"[./]", _array(text).strip("[;"))[-1]
    ends = tuple(f"{before}{simple}" for before in "/$")
    return sorted(name for name in known if name.endswith(ends))


def _slashed(name: str) -> str:
    """Returns a name with slashes for dots, and with `+` before the address of a hidden class."""
    return re.sub(r"/(0x[0-9a-f]+)", r"+\1", name).replace(".", "/")


def _array(name: str) -> str:
    """Returns the name of an array class, such as `A[]`, `byte[][]` or `[B`, as the report spells it."""
    letters = {word: letter for letter, word in PRIMITIVES.items()}
    found = re.fullmatch(r"([^\[\]]+)((?:\[\])+)", name)
    if found and found[1] in letters:
        depth = len(found[2]) // 2
        return name if depth == 1 else "[" * depth + letters[found[1]]
    if found:
        return "[" * (len(found[2]) // 2) + f"L{found[1]};"
    return f"{PRIMITIVES[name[1]]}[]" if re.fullmatch(r"\[[BCDFIJSZ]", name) else name
