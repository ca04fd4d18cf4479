"""Numbers in words: sizes, times, and numbers of things."""

from typing import List, Tuple


def size(number: int) -> str:
    """Returns a number of bytes in words, such as 41.2 MB."""
    for unit, scale in ("GB", 10**9), ("MB", 10**6), ("kB", 10**3):
        if abs(number) >= 0.9995 * scale:
            return f"{number / scale:.{0 if abs(number) >= 99.95 * scale else 1}f} {unit}"
    return counted(number, "byte")


def counted(number: int, noun: str) -> str:
    """Returns a number with its noun."""
    return f"{number:,} {plural(number, noun)}"


def plural(number: int, noun: str) -> str:
    """Returns `noun` as it is after `number`."""
    return noun if abs(number) == 1 else f"{noun}es" if noun.endswith("s") else f"{noun}s"


def more_are(objects: int, amount: int) -> str:
    """Returns how many objects and bytes more there are, with the verb: `1 object more is`. What is not above 0 is left
    out."""
    parts = [f"{counted(number, noun)} more" for number, noun in ((objects, "object"), (amount, "byte")) if number > 0]
    is_one = len(parts) == 1 and parts[0].startswith("1 ")
    return f"{', '.join(parts)} {'is' if is_one else 'are'}"


def duration(milliseconds: float) -> str:
    """Returns how long something took, in its two largest units."""
    seconds = round(milliseconds / 1000)
    parts: List[Tuple[int, str]] = []
    for unit, length in ("day", 86400), ("h", 3600), ("min", 60), ("s", 1):
        number, seconds = divmod(seconds, length)
        if number or parts:
            parts.append((number, unit))
    texts = [counted(number, unit) if unit == "day" else f"{number} {unit}" for number, unit in parts[:2] if number]
    return " ".join(texts) or "0 s"
