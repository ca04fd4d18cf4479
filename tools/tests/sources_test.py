"""Tests of what the sources of the tools and scripts import, define, and need of Python."""

from __future__ import annotations

import ast
import pathlib
import subprocess
import sys
import unittest
from collections import defaultdict
from collections.abc import Iterator

TOP = pathlib.Path(__file__).resolve().parents[2]
PACKAGE = TOP / "tools/heap_tools"
#: What each command has, by the same name.
OF_COMMANDS = {"ABOUT", "NOTES", "main", "parser", "run", "say_remainder"}
#: The versions of Python that the installed tools and that the scripts need.
OF_TOOLS, OF_SCRIPTS = (3, 7), (3, 9)

#: The most columns of a line.
WIDTH = 120


def trees(folder: pathlib.Path, version: tuple[int, int]) -> Iterator[tuple[pathlib.Path, ast.Module]]:
    """Yields what is written in Python in a folder, as this version of Python parses it."""
    for path in sorted(folder.rglob("*")):
        if path.is_file() and path.suffix in ("", ".py"):
            text = path.read_text(encoding="utf-8")
            if path.suffix == ".py" or text.startswith("#!/usr/bin/env python3\n"):
                yield path, ast.parse(text, str(path), feature_version=version)


def imported(tree: ast.Module) -> Iterator[str]:
    """Yields the modules that a module imports, and the names from modules."""
    for node in ast.walk(tree):
        if isinstance(node, ast.Import):
            yield from (each.name for each in node.names)
        elif isinstance(node, ast.ImportFrom):
            yield from (f"{node.module}.{each.name}" for each in node.names)


def defined(tree: ast.Module) -> Iterator[str]:
    """Yields the names of functions, classes and constants that a module defines for others."""
    for node in tree.body:
        names = [node.name] if isinstance(node, (ast.FunctionDef, ast.ClassDef)) else []
        if isinstance(node, (ast.Assign, ast.AnnAssign)):
            targets = node.targets if isinstance(node, ast.Assign) else [node.target]
            names = [it.id for target in targets for it in ast.walk(target) if isinstance(it, ast.Name)]
        yield from (name for name in names if not name.startswith("_"))


class SourcesTest(unittest.TestCase):
    """The package, and the scripts of tools/, dev/ and bench/"""

    def test_no_module_imports_a_command(self) -> None:
        """Commands import modules, nothing imports a command. What is installed imports nothing that is not."""
        found = 0
        for path, tree in trees(PACKAGE, OF_TOOLS):
            for name in imported(tree):
                found += 1
                self.assertFalse(name.startswith(("heap_tools.commands", "tests")), f"{path} imports {name}")
        self.assertGreater(found, 100)

    def test_pages_are_loaded_late(self) -> None:
        """Without a page, `leaks` does not load what pages are made of."""
        names = "import heap_tools.commands.leaks, sys; print(*sys.modules)"
        loaded = subprocess.run([sys.executable, "-B", "-c", names], cwd=TOP / "tools", capture_output=True, check=True)
        self.assertEqual([it for it in loaded.stdout.decode().split() if it.startswith("heap_tools.page")], [])

    def test_each_name_has_one_home(self) -> None:
        """No two modules define the same name, but for what each command has."""
        homes: dict[str, set[str]] = defaultdict(set)
        for path, tree in trees(PACKAGE, OF_TOOLS):
            for name in defined(tree):
                homes[name].add(path.relative_to(PACKAGE).as_posix())
        self.assertGreater(len(homes), 200)
        for name, modules in homes.items():
            if not (name in OF_COMMANDS and all(it.startswith("commands/") for it in modules - {"command_line.py"})):
                self.assertEqual(len(modules), 1, f"{name}: {sorted(modules)}")

    def test_no_compiled_modules(self) -> None:
        """git ignores the modules that Python compiles beside the sources, and the build of the package writes none."""
        self.assertIn("__pycache__/", (TOP / ".gitignore").read_text(encoding="utf-8").splitlines())
        self.assertIn("sys.dont_write_bytecode = True", (TOP / "tools/setup.py").read_text(encoding="utf-8"))

    def test_width(self) -> None:
        """No line of a module or a script has more than 120 columns."""
        count = 0
        for path in (path for folder in ("tools", "dev", "bench") for path in sorted((TOP / folder).rglob("*"))):
            if path.is_file() and path.suffix in ("", ".py", ".sh") and "out" not in path.parts:
                lines = path.read_text(encoding="utf-8").splitlines()
                if path.suffix or lines[:1] and lines[0].startswith("#!"):
                    count += 1
                    wide = [number for number, line in enumerate(lines, 1) if len(line) > WIDTH]
                    self.assertEqual(wide, [], path.relative_to(TOP))
        self.assertGreater(count, 150)

    def test_old_python(self) -> None:
        """Scripts parse as the version of Python that they need. (For what is installed, the tests above show it.)"""
        parsed = [path for folder in ("tools", "dev", "bench") for path, _ in trees(TOP / folder, OF_SCRIPTS)]
        self.assertGreater(len(parsed), 100)
        page, project = TOP / "CONTRIBUTING.md", TOP / "tools/pyproject.toml"
        self.assertIn(f"needs Python {OF_SCRIPTS[0]}.{OF_SCRIPTS[1]} ", page.read_text(encoding="utf-8"))
        self.assertIn(f'requires-python = ">={OF_TOOLS[0]}.{OF_TOOLS[1]}"', project.read_text(encoding="utf-8"))
