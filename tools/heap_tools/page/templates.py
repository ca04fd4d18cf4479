"""Plain text as HTML: escapes and shortens it, marks where its lines may end, fills the templates of `page.html`."""

import html
import pathlib
import re
import string
import unicodedata
from typing import Dict, Iterable

from heap_tools.class_names import byte_escapes

FOLDER = pathlib.Path(__file__).resolve().parent
#: Categories of characters that are shown by their bytes: controls, marks of direction, halves of a pair, and so on.
HIDDEN = {"Cc", "Cf", "Cn", "Co", "Cs", "Zl", "Zp"}
#: How many characters of a sentence or a command are shown.
LONGEST_SENTENCE = 2000


class Html(str):
    """Text that is HTML already, and is not escaped again."""


def joined(parts: Iterable[str], between: str = "") -> Html:
    """Returns pieces of HTML as one."""
    return Html(between.join(parts))


def visible(text: str) -> str:
    """Returns `text` with the bytes of the characters that cannot be seen, each as `\\x` and two digits."""
    if text.isprintable():
        return text
    return "".join(escapes(char) if unicodedata.category(char) in HIDDEN else char for char in text)


def escapes(char: str) -> str:
    """Returns the bytes of a character. A character that means a byte in the name of a file is that byte."""
    number = ord(char)
    return f"\\x{number - 0xDC00:02x}" if 0xDC80 <= number <= 0xDCFF else byte_escapes(char)


def shortened(text: str, longest: int) -> str:
    """Returns `text` if it has at most `longest` characters, else its beginning and its end."""
    end = longest // 3
    return text if len(text) <= longest else f"{text[: longest - end - 1]}…{text[-end:]}"


def plain(text: str, longest: int = LONGEST_SENTENCE) -> str:
    """Returns plain text as it is shown, before it is escaped."""
    return shortened(visible(shortened(text, longest)), longest)


def escaped(value: object) -> Html:
    """Returns `value` as HTML: what is HTML already as it is, all else as text."""
    return value if isinstance(value, Html) else Html(html.escape(plain(str(value))))


def templates() -> Dict[str, string.Template]:
    """Returns the templates of `page.html` by their names. A line `<!-- template: NAME -->` begins each."""
    parts = re.split(r"<!-- template: (\w+) -->\n", (FOLDER / "page.html").read_text(encoding="utf-8"))
    return {name: string.Template(text.rstrip("\n")) for name, text in zip(parts[1::2], parts[2::2])}


TEMPLATES = templates()


def fill(template: str, **values: object) -> Html:
    """Returns the template with `values` in their places, each as `escaped` returns it."""
    return Html(TEMPLATES[template].substitute({key: escaped(value) for key, value in values.items()}))
