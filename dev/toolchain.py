"""The toolchain's own program, `rt`, as a module: for the functions by which it checks crates and tries edits."""

from __future__ import annotations

import importlib.machinery
import importlib.util
import os
import shutil
import sys
from typing import Any


def load() -> Any:
    """Returns `rt` as a module. Ends the program if it is not on the PATH."""
    found = shutil.which("rt")
    if not found:
        sys.exit(f"{os.path.basename(sys.argv[0])}: rt is not on the PATH: add the toolchain's folder bin")
    path = os.path.realpath(found)
    sys.path.insert(0, os.path.dirname(path))
    loader = importlib.machinery.SourceFileLoader("rt_command", path)
    spec = importlib.util.spec_from_loader("rt_command", loader)
    assert spec
    module = importlib.util.module_from_spec(spec)
    loader.exec_module(module)
    return module


def crate_here(rt: Any) -> Any:
    """Returns the crate, an object of `rt`, whose folder is the current one, or None."""
    here = os.path.realpath(".")
    return next((it for it in rt.rtlib.crates_below(here) if os.path.realpath(it.folder) == here), None)
