"""Builds the package of the tools, which pyproject.toml describes.

The version is in the sources of the command lines: it is read there, and written beside the modules that are
built, since an installed package is not beside these sources. setuptools before version 70 leaves the writing of wheels
to the package `wheel`; where a machine has neither, `PlainWheel` does that.
"""

import atexit
import base64
import hashlib
import importlib.util
import pathlib
import shutil
import sys
import tempfile
import zipfile
from typing import Any, Dict, List, Optional, Type

import setuptools
from setuptools.command.build_py import build_py

TOOLS = pathlib.Path(__file__).resolve().parent
sys.dont_write_bytecode = True  # into the sources, which are not to be changed
sys.path.insert(0, str(TOOLS))
from heap_tools.version import NO_VERSION, VERSION  # noqa: E402 (found by the path above)

#: The version of what is built: of a copy of this folder it is not known, and `unknown` is none that pip takes.
BUILT = "0+unknown" if VERSION == NO_VERSION else VERSION

TAG = "py3-none-any"
WHEEL = f"Wheel-Version: 1.0\nGenerator: heapmark\nRoot-Is-Purelib: true\nTag: {TAG}\n"


class BuildWithVersion(build_py):
    """Also writes the version into the package that is built."""

    def run(self) -> None:
        super().run()
        pathlib.Path(self.build_lib, "heap_tools", "VERSION").write_text(f"{VERSION}\n", encoding="utf-8")


class PlainWheel(setuptools.Command):
    """Writes a wheel of modules in Python."""

    user_options = [("dist-dir=", "d", "the folder of the wheel")]
    distribution: Any

    def initialize_options(self) -> None:
        self.dist_dir: Optional[str] = None

    def finalize_options(self) -> None:
        self.dist_dir = self.dist_dir or "dist"

    def egg2dist(self, egg_info: str, dist_info: str) -> None:
        """Makes the folder `dist_info` of a wheel from what setuptools has written. setuptools calls it by this
        name."""
        found, made = pathlib.Path(egg_info), pathlib.Path(dist_info)
        made.mkdir(parents=True, exist_ok=True)
        shutil.copy(found / "PKG-INFO", made / "METADATA")
        for name in ("entry_points.txt", "top_level.txt"):
            shutil.copy(found / name, made / name)
        (made / "WHEEL").write_text(WHEEL, encoding="utf-8")

    def run(self) -> None:
        """Builds the modules, and packs them with the folder of the wheel."""
        self.run_command("build_py")
        self.run_command("egg_info")
        modules: Any = self.get_finalized_command("build_py")
        egg_info: Any = self.get_finalized_command("egg_info")
        built = pathlib.Path(modules.build_lib)
        name = f"{self.distribution.get_name().replace('-', '_')}-{BUILT}"
        self.egg2dist(egg_info.egg_info, str(built / f"{name}.dist-info"))
        assert self.dist_dir
        pathlib.Path(self.dist_dir).mkdir(parents=True, exist_ok=True)
        record: List[str] = []
        with zipfile.ZipFile(pathlib.Path(self.dist_dir, f"{name}-{TAG}.whl"), "w", zipfile.ZIP_DEFLATED) as wheel:
            for path in sorted(path for path in built.rglob("*") if path.is_file()):
                content, place = path.read_bytes(), path.relative_to(built).as_posix()
                wheel.writestr(place, content)
                digest = base64.urlsafe_b64encode(hashlib.sha256(content).digest()).rstrip(b"=").decode()
                record.append(f"{place},sha256={digest},{len(content)}\n")
            place = f"{name}.dist-info/RECORD"
            wheel.writestr(place, "".join([*record, f"{place},,\n"]))


def commands() -> Dict[str, Type[setuptools.Command]]:
    """Returns the commands in place of those of setuptools, or beside them."""
    found: Dict[str, Any] = {"build_py": BuildWithVersion}
    if not any(importlib.util.find_spec(name) for name in ("wheel", "setuptools.command.bdist_wheel")):
        found["bdist_wheel"] = PlainWheel
    return found


def main() -> None:
    """Runs setuptools. It builds elsewhere, since its usual folder, `build` beside this file, is the name of a tool."""
    room = tempfile.mkdtemp()
    atexit.register(shutil.rmtree, room, ignore_errors=True)
    places = {"build": {"build_base": room}, "egg_info": {"egg_base": room}}
    setuptools.setup(version=BUILT, cmdclass=commands(), options=places)


if __name__ == "__main__":
    main()
