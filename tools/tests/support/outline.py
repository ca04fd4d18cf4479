"""What a page of HTML has, for tests: its elements, its headings, its text, and the faults of its form."""

import html.parser
from typing import Dict, List, Optional, Tuple

VOID = {"meta", "wbr"}
#: Elements whose text is apart from what follows.
BLOCKS = {"dt", "dd", "li", "p", "h1", "h2", "h3", "td", "th", "pre", "text", "title", "desc"}
Attributes = Dict[str, Optional[str]]


class Outline(html.parser.HTMLParser):
    """The elements of a page and their attributes, and its text without that of the style. `faults`: end tags that do
    not fit. `open`: elements without an end tag."""

    def __init__(self, text: str) -> None:
        super().__init__()
        self.open: List[str] = []
        self.elements: List[Tuple[str, Attributes]] = []
        self.texts: List[str] = []
        self.faults: List[str] = []
        self.feed(text)
        self.close()

    def handle_starttag(self, tag: str, attrs: List[Tuple[str, Optional[str]]]) -> None:
        """Notes an element."""
        self.elements.append((tag, dict(attrs)))
        if tag not in VOID:
            self.open.append(tag)

    def handle_startendtag(self, tag: str, attrs: List[Tuple[str, Optional[str]]]) -> None:
        """Notes an element without content."""
        self.elements.append((tag, dict(attrs)))

    def handle_endtag(self, tag: str) -> None:
        """Notes whether the end of an element fits."""
        if not self.open or self.open.pop() != tag:
            self.faults.append(f"</{tag}> at {self.getpos()}")
        if tag in BLOCKS:
            self.texts.append(" ")

    def handle_data(self, data: str) -> None:
        """Notes text."""
        if not self.open or self.open[-1] != "style":
            self.texts.append(data)

    def text(self) -> str:
        """Returns all text, with a blank for all blanks in a row."""
        return " ".join("".join(self.texts).split())

    def all(self, *tags: str) -> List[Attributes]:
        """Returns the attributes of the elements with one of these names."""
        return [attributes for tag, attributes in self.elements if tag in tags]

    def values(self, attribute: str) -> List[str]:
        """Returns the values of an attribute, of all elements that have it."""
        values = (attributes.get(attribute) for _, attributes in self.elements)
        return [value for value in values if value is not None]
