"""Reads a source of Rattle as words and signs, without comments and what does not run: brackets and functions."""

from __future__ import annotations

import re

TOKEN = re.compile(
    r"""
    (?P<skipped>\s+|//[^\n]*|/\*.*?\*/)
    |(?P<text>b?r(?P<hashes>\#*)".*?"(?P=hashes)|b?"(?:\\.|[^"\\])*"|b?'(?:\\[^\n']+|[^\n'\\])')
    |(?P<lifetime>'\w+)
    |(?P<word>\w+)
    |(?P<sign>=>|->|::|==|<=|>=|!=|&&|\|\||.)
""",
    re.X | re.S,
)
OPENING, CLOSING = {"(", "[", "{"}, {")", "]", "}"}
#: What stands before the name of an item or a variable, or before another name of an import.
DECLARING = {"fn", "struct", "enum", "union", "trait", "const", "static", "type", "mod", "as"}
#: Words that are no names.
KEYWORDS = {"as", "else", "fn", "if", "in", "let", "match", "mut", "pub", "ref", "return", "self", "true", "false"}
#: The module of tests.
TESTS = ["#", "[", "cfg", "(", "test", ")", "]", "mod", "tests", ";"]


class Token(str):
    """A word or sign of a source, with its line."""

    line = 0


def tokens_of(text: str) -> list[Token]:
    """Returns the words and signs of a source, without comments. A text is the word `""`."""
    found: list[Token] = []
    line = 1
    for match in TOKEN.finditer(text):
        if not match.group("skipped"):
            token = Token('""' if match.group("text") else match.group())
            token.line = line
            found.append(token)
        line += match.group().count("\n")
    return found


def end_of_group(tokens: list[Token], start: int) -> int:
    """Returns the index after the bracket that closes the one at `start`."""
    depth = 0
    for index in range(start, len(tokens)):
        depth += (tokens[index] in OPENING) - (tokens[index] in CLOSING)
        if depth == 0:
            return index + 1
    return len(tokens)


def find_outside(tokens: list[Token], start: int, signs: set[str]) -> int:
    """Returns the index of the first of `signs` from `start` on that is in no bracket opened after `start`."""
    index = start
    while index < len(tokens) and tokens[index] not in signs:
        index = end_of_group(tokens, index) if tokens[index] in OPENING else index + 1
    return index


def end_of_item(tokens: list[Token], start: int) -> int:
    """Returns the index after the item at `start`, which ends with `;` or with a group in braces."""
    end = find_outside(tokens, start, {";", "{"})
    if tokens[end : end + 1] == ["{"]:
        end = end_of_group(tokens, end)
        return end + 1 if tokens[end : end + 1] == [";"] else end
    return end + 1


def without_ghosts(tokens: list[Token]) -> list[Token]:
    """Returns `tokens` without what does not run: ghost items, clauses, and the module of tests."""
    kept: list[Token] = []
    index = 0
    while index < len(tokens):
        after = tokens[index + 1 : index + 3]
        if tokens[index] == "ghost":
            index = end_of_item(tokens, index)
        elif tokens[index] in ("requires", "ensures") and "{" in after:
            index = end_of_group(tokens, tokens.index(Token("{"), index))
        elif tokens[index : index + len(TESTS)] == TESTS:
            index += len(TESTS)
        else:
            kept.append(tokens[index])
            index += 1
    return kept


def is_constant(tokens: list[Token], index: int) -> bool:
    """Tests whether a constant, a static or another name of a type begins at `index`."""
    if tokens[index] not in ("const", "static", "type"):
        return False
    return tokens[index - 1] not in ("*", "<", ",") and tokens[index + 1] != "fn"


def is_declared(tokens: list[Token], index: int) -> bool:
    """Tests whether an item, a variable, a parameter, a field or an import with another name declares the word at
    `index`. For variants see `variants`."""
    before, after = tokens[index - 1] if index else "", tokens[index + 1 : index + 2]
    if before == "let":
        return after not in (["{"], ["("], ["::"])  # a pattern with a type
    is_mutable = before == "mut" and tokens[index - 2] == "let"
    return before in DECLARING or is_mutable or after == [":"]


def is_bound(tokens: list[Token], index: int, use: int) -> bool:
    """Tests whether a pattern binds the word at `index` for what is at `use`: in a `let`, a loop, an arm, or a
    closure's parameters whose block has not ended before."""
    if tokens[index - 1] in (".", "::") or tokens[index + 1 : index + 2] in (["("], ["."], ["::"], ["!"]):
        return False
    start = index
    while start and tokens[start] not in ("let", "for", "|", ";", "{", "}", "=", "=>"):
        start -= 1
    end = find_outside(tokens, start + 1, {"=>", "|", "=", "in", ";", "{", "}"})
    is_pattern = tokens[start] in ("let", "for") or tokens[end] == "=>" or tokens[start] == tokens[end] == "|"
    return is_pattern and index < end and not ends_between(tokens, start + 1, use)


def ends_between(tokens: list[Token], start: int, end: int) -> bool:
    """Tests whether the block or group that `start` is in ends before `end`."""
    depth = 0
    for token in tokens[start:end]:
        depth += (token in OPENING) - (token in CLOSING)
        if depth < 0:
            return True
    return False


def variants(tokens: list[Token]) -> set[int]:
    """Returns the indices of the names of all variants that are declared."""
    found = set()
    for at in (at for at, token in enumerate(tokens) if token == "enum"):
        start = find_outside(tokens, at, {"{"})
        index, end = start + 1, end_of_group(tokens, start) - 1
        while index < end:
            if re.match(r"\w", tokens[index]) and tokens[index - 1] in ("{", ",", "]"):
                found.add(index)
            index = end_of_group(tokens, index) if tokens[index] in OPENING else index + 1
    return found


class Function:
    """A function: its name, the words of its parameters, and where its name, its body and the body's end are."""

    def __init__(self, tokens: list[Token], at: int) -> None:
        self.at, self.name = at + 1, tokens[at + 1]
        parameters = find_outside(tokens, at + 2, {"("})
        self.parameters = tokens[parameters : end_of_group(tokens, parameters)]
        self.start = find_outside(tokens, at + 2 + len(self.parameters), {"{", ";"})
        self.end = end_of_group(tokens, self.start)


class Level:
    """An open bracket, and the words in it since the last end of a statement, an arm or an argument."""

    def __init__(self, bracket: str) -> None:
        self.bracket = bracket
        self.words: list[str] = []


def split(words: list[str], sign: str) -> list[list[str]]:
    """Returns the words between those that are `sign`."""
    parts: list[list[str]] = [[]]
    for word in words:
        if word == sign:
            parts.append([])
        else:
            parts[-1].append(word)
    return parts


def is_call(words: list[str], calls: set[str]) -> bool:
    """Tests whether `words` are one of `calls`, on a field or in a module or not, and nothing else."""
    path = " ".join(words[:-2])
    is_path = words[-2:] == ["(", ")"] and all(re.fullmatch(r"\w+|\.|::", it) for it in words[:-3])
    return is_path and any(path == it or path.endswith(f" {it}") for it in calls)


def expression_in(words: list[str]) -> list[str]:
    """Returns the words of the expression at the end of a statement, an arm or an argument with these `words`."""
    begins = [at + 1 for at, word in enumerate(words) if word in ("=>", "=", "return")]
    return words[begins[-1] :] if begins else words
