"""How the path of a line is shown: beside its figures, or on a terminal without room for that on lines of its own."""

import shutil
import sys
from typing import List, Sequence

from heap_tools.candidates import joint_name
from heap_tools.console import is_terminal
from heap_tools.probe import Retained

#: What is between two steps, and what stands for steps that are left out.
ARROW, LEFT_OUT = " > ", ".."
#: What a line begins with that has only a part of a path.
INDENT = "    "


def line_with_path(figures: str, path: Sequence[Retained]) -> str:
    """Returns the figures of a line and its path: in one line, but for a terminal that is not so wide."""
    whole = f"{figures}  {ARROW.join(joint_name(each.candidates) for each in path)}"
    width = shutil.get_terminal_size().columns if is_terminal(sys.stdout) else len(whole)
    return whole if len(whole) <= width else "\n".join([figures, *path_lines(path, width)])


def path_lines(path: Sequence[Retained], width: int) -> List[str]:
    """Returns the lines of a path, each at most as wide as `width` if no step is wider. If all do not fit into one, the
    steps of the JDK between the first and the last are left out: `--json` has them."""
    steps = [joint_name(each.candidates) for each in path]
    if len(INDENT + ARROW.join(steps)) > width:
        steps = without_jdk(path)
    lines = [INDENT + steps[0]]
    for step in steps[1:]:
        if len(lines[-1] + ARROW + step) <= width:
            lines[-1] += ARROW + step
        else:
            lines.append(INDENT + ARROW.lstrip() + step)
    return lines


def without_jdk(path: Sequence[Retained]) -> List[str]:
    """Returns the steps of a path, with `LEFT_OUT` for those of the JDK that are neither the first nor the last."""
    steps: List[str] = []
    for number, each in enumerate(path):
        is_shown = each.is_own or number in (0, len(path) - 1)
        if is_shown or steps[-1] != LEFT_OUT:
            steps.append(joint_name(each.candidates) if is_shown else LEFT_OUT)
    return steps
