"""Names that a user may have meant by one that is not known."""

from difflib import get_close_matches
from typing import Dict, Iterable, List, Sequence

#: How alike two names are, from 0 to 1, if one may be a slip of the other: two letters of nine in the wrong order are.
#: And how many such names are said.
ALIKE, MOST_SUGGESTED = 0.8, 3


def close_names(text: str, known: Iterable[str]) -> List[str]:
    """Returns those of the names `known` that differ from `text` in few letters, small or capital, the closest
    first."""
    by_letters: Dict[str, List[str]] = {}
    for name in known:
        by_letters.setdefault(name.lower(), []).append(name)
    close = get_close_matches(text.lower(), by_letters, MOST_SUGGESTED, ALIKE)
    return [name for letters in close for name in by_letters[letters]][:MOST_SUGGESTED]


def did_you_mean(names: Sequence[str]) -> str:
    """Returns a question after a colon, empty if there are no names."""
    return f": did you mean {' or '.join(names[:MOST_SUGGESTED])}?" if names else ""
