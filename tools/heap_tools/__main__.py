"""What `python -m heap_tools` prints: the commands, and how to run one."""

from heap_tools import VERSION
from heap_tools.console import write

#: The commands, and what each shows.
COMMANDS = {
    "leaks": "what holds that which grew between dumps, or fills the heap of one",
    "grown": "which classes grew between dumps, reports or histograms",
    "holders": "what holds the objects of a class in a dump",
    "held": "what some fields of a dump retain",
    "sizes": "what the classes of a dump take in the heap",
}


def commands_text() -> str:
    """Returns a line for each command, below what this package is."""
    lines = [f"heap_tools {VERSION}: commands on heap dumps of Java programs, which run heapmark", ""]
    lines += [f"  {name:8} shows {what}" for name, what in COMMANDS.items()]
    return "\n".join([*lines, "", "Each prints its help with --help, such as `leaks --help`.", ""])


if __name__ == "__main__":
    write(commands_text())
