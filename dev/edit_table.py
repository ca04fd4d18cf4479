"""The table dev/edits.tsv: what refuses each must-fail edit, in the prover's words.

Each row has a wrong body of `crates/*/must-fail/`, the functions that it leaves unproved, and why:

- A goal stays open. `returns-clause-did` is the clause `did` on return (docs/RATTLE.md, "How a proof is written").
- `an answer to GOAL`: a proof written by hand does not fit the body. Then the row may lack other open goals.

Functions that only call an unproved one are omitted. dev/gate_costs and dev/try_edits compare each row with what the
prover says, and `try_edits --write` writes it: sorted by edit within its crate, cells of several parts with commas.
"""

from __future__ import annotations

import re

PAGE = "dev/edits.tsv"
#: What a part of a cell begins with if a proof written by hand does not fit.
ANSWER = "an answer"


def refused_by(said: str) -> dict[str, list[str]]:
    """Returns what refuses an edit, by function: its open goals, or what a proof written by hand says. `said` is all
    that the prover said of the edit. A function without an open goal that only calls an unproved one is skipped."""
    found: dict[str, list[str]] = {}
    for line in said.splitlines():
        line, _, calls = line.partition("it calls `")
        if not (": error: " in line or ": no proof" in line) or calls and "did not prove" not in line:
            continue
        searched = re.match(r"fn \w+::(\S+): no proof.*`search` did not prove (.*)$", line)
        by_hand = re.match(r"\./proofs/(\S+)/(?:Answers|Proof)\.antt:\S+ error: (?:`([\w+-]+)`)?", line)
        if searched:
            found.setdefault(searched[1], []).extend(re.findall(r"`([\w+-]+)`", searched[2]))
        elif by_hand:
            answer = f"{ANSWER} to {by_hand[2]}" if by_hand[2] else ANSWER
            found.setdefault(by_hand[1].replace("/", "::"), []).append(answer)
        else:
            found.setdefault("", []).append(line[:80].replace("`", "'").replace("\t", " "))
    return found


def row(crate: str, edit: str, found: dict[str, list[str]]) -> str:
    """Returns the row of `edit`. `found` is what refuses it, as `refused_by` returns it."""
    goals = [goal for function in found for goal in sorted(set(found[function]))]
    return "\t".join((crate, edit, ", ".join(it for it in found if it), ", ".join(dict.fromkeys(goals))))


def told_by(line: str) -> tuple[set[str], set[str]]:
    """Returns the functions and the goals of a row. An answer counts as its goal, or not at all if it names none."""
    functions, goals = (set(cell.split(", ")) for cell in line.split("\t")[2:])
    return functions - {""}, {it.replace(f"{ANSWER} to ", "") for it in goals - {"", ANSWER}}


def read(text: str) -> dict[tuple[str, str], str]:
    """Returns the rows of the table `text`, by crate and edit."""
    lines = ((line.split("\t"), line) for line in text.splitlines()[1:])
    return {(cells[0], cells[1]): line for cells, line in lines}


def compared(rows: dict[tuple[str, str], str], crate: str, edit: str, found: dict[str, list[str]]) -> bool:
    """Tests whether the row of an edit says what the prover said. If `found` only says how a proof ended, the row is
    not compared."""
    line = rows.get((crate, edit), "")
    return bool(line) and ("" in found or told_by(line) == told_by(row(crate, edit, found)))


def written(text: str, crate: str, edit: str, found: dict[str, list[str]]) -> str:
    """Returns the table `text` with what the prover said of an edit in its row, or in a new one. A new crate becomes
    the last."""
    rows = read(text)
    rows[crate, edit] = row(crate, edit, found)
    crates = list(dict.fromkeys(of for of, _ in rows))
    ordered = sorted(rows, key=lambda it: (crates.index(it[0]), it[1]))
    return "\n".join([text.splitlines()[0], *(rows[it] for it in ordered), ""])
