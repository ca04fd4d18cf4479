"""The list of crates, crates.txt: each crate of the repository, and the libraries that it uses."""

from __future__ import annotations

import pathlib

#: Where the list is, below the top of the repository.
PAGE = "crates.txt"


def read(text: str) -> dict[str, list[str]]:
    """Returns the crates of the list `text` in its order, each with all libraries that it uses. Besides crates of the
    repository these are libraries of the kit."""
    uses = {}
    for line in text.splitlines():
        head, colon, used = line.partition("#")[0].partition(":")
        if colon:
            uses[head.split()[0]] = used.split()
    return uses


def read_at(top: pathlib.Path) -> dict[str, list[str]]:
    """Returns the crates of the repository at `top`, as `read` does."""
    return read((top / PAGE).read_text(encoding="utf-8"))


def without_kit(uses: dict[str, list[str]]) -> dict[str, list[str]]:
    """Returns the crates of `uses`, each only with the crates of the repository that it uses."""
    return {name: [it for it in used if it in uses] for name, used in uses.items()}
