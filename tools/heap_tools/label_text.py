"""The text of labels that `retained` reads: which references have which labels, and which are not followed.

docs/LABELS.md lists its lines. A place is a word and its numbers, as the text has them.
"""

from itertools import chain
from typing import Iterator, NamedTuple, Sequence

#: Where a reference is: `class ID K`, `object ID K` or `root K`.
Place = str


def in_class(class_id: int, number: int) -> Place:
    """Returns the place of identifier `number` of each object of a class, but for those of its subclasses."""
    return f"class {class_id} {number}"


def class_of(place: Place) -> int:
    """Returns the class of a place of its objects."""
    return int(place.split(" ")[1])


def in_object(identifier: int, number: int) -> Place:
    """Returns the place of identifier `number` of an object."""
    return f"object {identifier} {number}"


def in_root(number: int) -> Place:
    """Returns the place of the identifier in root `number` of the dump."""
    return f"root {number}"


class Labels(NamedTuple):
    """Places of references that are not followed, identifiers of objects that are roots, too, and the places that have
    each label, by its number."""

    cut: Sequence[Place] = ()
    roots: Sequence[int] = ()
    places: Sequence[Sequence[Place]] = ()

    def text(self) -> Iterator[bytes]:
        """Yields the lines of the text: what is cut, the roots, and each label by itself."""
        labels = ((f"label {number}", places) for number, places in enumerate(self.places))
        for head, places in chain([("cut", self.cut), ("root", list(map(str, self.roots)))], labels):
            lines = f"\n{head} ".join(["", *places])  # in one call: a run may have a million lines
            yield f"{lines[1:]}\n".encode() if lines else b""
