"""The version of heapmark, which is that of the tools, too."""

import pathlib
import re

HERE = pathlib.Path(__file__).resolve().parent
#: The one place where the version is written: the sources of the command lines.
SOURCE = HERE.parent.parent / "crates/common_line/src/version.rt"
#: Its copy in an installed package, beside this file.
INSTALLED = HERE / "VERSION"
#: What stands for the version where it is not known.
NO_VERSION = "unknown"


def find_version() -> str:
    """Returns the version, or `NO_VERSION` in a copy of the package that is neither installed nor in the sources."""
    if INSTALLED.exists():
        return INSTALLED.read_text(encoding="utf-8").strip()
    if SOURCE.exists():
        found = re.search(r"VERSION: &str = \"\\\n([0-9.]+)$", SOURCE.read_text(encoding="utf-8"), re.M)
        if found:
            return found[1]
    return NO_VERSION


VERSION = find_version()
