"""Finds out where a fault may be made: in an arm, a block or a call that runs only for its cause."""

from __future__ import annotations

from rattle_source import Level, Token, expression_in, is_call, split
from source_rules import ALLOCATING, FAILURES


def patterns_of(words: list[str]) -> list[list[str]]:
    """Returns the patterns of the arm of which these are the first words, none if they are of no arm."""
    if "=>" not in words:
        return []
    pattern = words[: words.index("=>")]
    return split(pattern[: pattern.index("if")] if "if" in pattern else pattern, "|")


def is_arm_for(words: list[str], causes: set[str]) -> bool:
    """Tests whether an arm of which these are the first words is run only for `causes`: each pattern names one with its
    type. A bare name could be a variable, which fits anything."""
    patterns = patterns_of(words)
    return bool(patterns) and all(
        any(pair == ("::", cause) for pair in zip(it, it[1:]) for cause in causes) for it in patterns
    )


def is_arm_for_a_failure(words: list[str]) -> bool:
    """Tests whether an arm of which these are the first words is run only for `Err`."""
    patterns = patterns_of(words)
    return bool(patterns) and all(it[:1] == ["Err"] for it in patterns)


def is_in_an_arm(levels: list[Level], causes: set[str], calls: set[str]) -> bool:
    """Tests whether what comes next in these brackets is run only in an arm whose pattern names one of `causes`, or in
    one for a failure of one of `calls`."""
    for outer, level in zip(levels, levels[1:]):
        if is_arm_for(level.words, causes):
            return True
        scrutinee = split(outer.words, "match")
        if is_arm_for_a_failure(level.words) and len(scrutinee) > 1 and is_call(scrutinee[-1], calls):
            return True
    return False


def is_guarded(levels: list[Level], tests: set[str]) -> bool:
    """Tests whether what comes next in these brackets is run only if one of `tests` failed."""
    for level, inner in zip(levels, levels[1:]):
        words = level.words
        if inner.bracket != "{":
            continue
        if words[:2] == ["if", "!"] and is_call(words[2:], tests):
            return True
        if words[:2] == ["let", "Ok"] and words[-1] == "else" and is_call(expression_in(words[:-1]), tests):
            return True
    return False


def is_for_a_failed_call(levels: list[Level]) -> bool:
    """Tests whether what comes next in these brackets is run only if an allocation failed."""
    if is_in_an_arm(levels, FAILURES - {"OUT_OF_MEMORY"}, ALLOCATING) or is_guarded(levels, ALLOCATING):
        return True
    for level, inner in zip(levels, levels[1:]):
        words = expression_in(level.words)
        if inner.bracket == "(" and words[-2:] == [".", "map_err"] and is_call(words[:-2], ALLOCATING):
            return True
        is_test = inner.bracket == "{" and words[:1] == ["if"] and words[-4:] == [".", "is_err", "(", ")"]
        if is_test and is_call(words[1:-4], ALLOCATING):
            return True
    return False


def makes_none(levels: list[Level], before: list[Token], after: list[Token]) -> bool:
    """Tests whether a name of the fault makes none: it is a pattern, a type, or compared. `before` and `after` are the
    words around it."""
    rest = list(after)
    while rest[:1] == [")"]:
        del rest[0]
    return (
        rest[:1] in (["=>"], ["="], ["|"], ["if"])
        or after[:1] in ([">"], ["=="], ["!="])
        or before[-1:] in (["->"], ["=="], ["!="])
        or is_compared(levels)
    )


def is_compared(levels: list[Level]) -> bool:
    """Tests whether what comes next in these brackets is a pattern of `matches!`."""
    starts = [at for at, level in enumerate(levels) if level.words[-2:] == ["matches", "!"]]
    inner = levels[starts[-1] + 1 :] if starts else []
    return bool(starts) and all(it.bracket == "(" and "return" not in it.words for it in inner)
