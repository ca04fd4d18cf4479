"""The parts of `tools/check` that run other tools: tests, and what reads sources. Each is given the program and an
empty folder, and returns what its line is to say."""

from __future__ import annotations

import pathlib
import re
import subprocess
import sys

from checked_run import TOP, LeftOut, require, run_tool
from started_threads import COMPILER

#: What a tool needs besides Python and a shell.
WANTS = {"starve": [COMPILER]}
#: The folders with scripts, and folders in them that others make.
SCRIPTS, SKIPPED = ("dev", "bench", "tools", ".ci"), {"out", "__pycache__"}
#: The oldest Python that runs what is installed.
OLDEST = "3.7"
#: What finds a language in the first line of a script.
PYTHON, SHELL = re.compile(r"#!.*\bpython3?\b"), re.compile(r"#!.*\b(ba)?sh\b")
#: The year of the black whose form is kept: each year's form may differ.
BLACK = 23
#: The tools that look only at files.
OF_FILES = ("quotes", "names", "check_source", "check_source_test", "edit_table_test")


def tool(program: str, path: pathlib.Path, _: str) -> None:
    """Runs another tool on the program, in a session of its own."""
    for name in WANTS.get(path.name, []):
        require(name)
    run_tool(program, [str(path), *([] if path.name in OF_FILES else [program])])


def test_of_module(program: str, module: str, _: str) -> str:
    """Runs the tests of a module in tools/. Returns what they say they have left out."""
    lines = run_tool(program, [sys.executable, "-B", "-m", "unittest", "-v", module], folder="tools")
    return "; ".join(line for line in lines if line.startswith("left out: ") or "... skipped " in line)


def files_in(language: re.Pattern[str], suffix: str) -> list[str]:
    """Returns the files of SCRIPTS in a language: those with this suffix, and those whose first line names a program
    that `language` finds."""
    found = []
    for path in sorted(it for folder in SCRIPTS for it in (TOP / folder).rglob("*")):
        if path.is_file() and not SKIPPED.intersection(path.parts):
            with open(path, "rb") as file:
                names = language.match(file.readline(100).decode(errors="replace"))
            if names or path.suffix == suffix:
                found.append(path.relative_to(TOP).as_posix())
    return found


def types(program: str, room: str) -> str | None:
    """All Python has types, and they fit. Modules of dev/ and packages of tools/ are found there. What is installed
    fits the oldest Python that may run it, too, if mypy knows that one."""
    require("mypy")
    flags = ["--strict", "--no-error-summary", f"--cache-dir={room}"]
    run_tool(program, ["mypy", *flags, "--scripts-are-modules", *files_in(PYTHON, ".py")], MYPYPATH="dev:tools")
    old = ["mypy", *flags, "--python-version", OLDEST]
    if subprocess.run([*old, "-c", "pass"], stdout=subprocess.DEVNULL, stderr=subprocess.DEVNULL).returncode:
        return f"this mypy does not know Python {OLDEST}"
    run_tool(program, [*old, "-p", "heap_tools"], MYPYPATH="tools")
    return f"what is installed, also for Python {OLDEST}"


def shell(program: str, _: str) -> None:
    """No shell script has a mistake that shellcheck knows."""
    require("shellcheck")
    run_tool(program, ["shellcheck", "--external-sources", "--format=gcc", *files_in(SHELL, ".sh")])


def form(program: str, _: str) -> None:
    """All Python has the form that black gives it."""
    require("black")
    if not run_tool(program, ["black", "--version"])[0].startswith(f"black, {BLACK}."):
        raise LeftOut(f"this black is not of 20{BLACK}")
    run_tool(program, ["black", "--check", "--quiet", "--config=tools/pyproject.toml", *files_in(PYTHON, ".py")])


#: The parts that are no tool or test of their own, by name.
PARTS = {"mypy": types, "black": form, "shellcheck": shell}
