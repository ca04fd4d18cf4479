"""The names of objects: in which fields they are, how they are spelled, and which of them tell objects apart."""

import re
from collections import Counter
from typing import Dict, Iterable, List, Mapping, NamedTuple, Sequence, Tuple

from heap_tools.class_names import printable

#: The fields of a text that names an object, the likeliest first. An object with one text only is named by that.
NAMING = ("name", "id", "key", "destination", "topic", "queue", "title", "label", "path", "url", "host")
#: A number that a program makes at random (RFC 4122). It names an object for programs, not for a reader.
RANDOM = re.compile("[0-9a-f]{8}-(?:[0-9a-f]{4}-){3}[0-9a-f]{12}", re.IGNORECASE)
#: What an object is as a text, if its class does not say how: the class, and a number that differs in each run.
OF_OBJECT = re.compile(r"[\w.$/]+@[0-9a-f]{1,8}")
#: How many names of an object are shown.
NAMES_SHOWN = 2
#: How many characters of a text are shown.
LONGEST_TEXT = 60


class Name(NamedTuple):
    """What names an object: `how` in words, such as `its field name`, and the text, as it is shown. `is_of_thread`: the
    text is the name of a thread."""

    how: str
    text: str
    is_of_thread: bool = False

    def __str__(self) -> str:
        return f"{self.how} {self.text}".rstrip()

    def hidden(self) -> "Name":
        """Returns the name without its text, unless that is the name of a thread."""
        return self if self.is_of_thread else self._replace(text="")


def shown_text(text: str) -> str:
    """Returns a text of a dump in quotes and in one line, cut to its first characters if it is long."""
    cut = text if len(text) <= LONGEST_TEXT else text[: LONGEST_TEXT - 2] + ".."
    return f'"{printable(cut)}"'


def is_naming(field: str) -> bool:
    """Tests whether a field is called as what names an object is."""
    return field in NAMING or field.endswith("Name")


def likeliest_first(name: Name) -> Tuple[bool, Name]:
    """Returns what names of owners are sorted by: those come first whose last field is called as what names is, and has
    a text."""
    return not (name.text and is_naming(re.split("[ .]", name.how)[-1])), name


def naming_texts(texts: Mapping[int, str]) -> Dict[int, str]:
    """Returns the texts that may name something, by the objects that they are: no empty ones, and not what an object is
    as a text."""
    return {key: text for key, text in texts.items() if text and not OF_OBJECT.fullmatch(text)}


def likely_names(named: Mapping[str, str]) -> List[str]:
    """Returns which of the fields with these texts name their object, the likeliest first. A text of several lines,
    such as the stack where an object was made, is no name, and neither is what is called a trace, or has a random
    number and is not called as a name is. What an object is as a text names none, and leaves that to no other one."""
    named = {
        field: text for field, text in named.items() if text and "\n" not in text and field[-5:].lower() != "trace"
    }
    likely = [field for field in NAMING if field in named] or [field for field in named if is_naming(field)]
    telling = [field for field, text in named.items() if not RANDOM.search(text)]
    found = likely or (telling if len(telling) == 1 else [])
    return [field for field in found if not OF_OBJECT.fullmatch(named[field])]


def alone_in(names: Mapping[int, Sequence[Name]]) -> Dict[int, List[Name]]:
    """Returns the names of each object that no other has, too: the others tell nothing apart."""
    count = Counter(name for of_object in names.values() for name in set(of_object))
    return {at: [name for name in of_object if count[name] == 1] for at, of_object in names.items()}


def names_joined(names: Iterable[Name]) -> List[Name]:
    """Returns names of an object with each text once: what has the same text is joined, as in `its field id and the
    map's key`."""
    found: Dict[str, Dict[str, bool]] = {}
    for how, text, is_of_thread in names:
        found.setdefault(text, {})[how] = is_of_thread
    return [Name(" and ".join(of_text), text, all(of_text.values())) for text, of_text in found.items()]


def first_of_texts(names: Iterable[Name]) -> List[Name]:
    """Returns the first of the names with each text, and those without a text."""
    found: Dict[str, Name] = {}
    for each in names:
        found.setdefault(each.text or each.how, each)
    return list(found.values())
